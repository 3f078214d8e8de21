/* The calls of dgc.h, which take NULL with the length 0. The proved ones, which archive.py names dgc_proved_*, are given an address then. */
#include "dgc.h"

uint32_t dgc_proved_interface(void);
size_t dgc_proved_version(uint8_t *room, size_t room_length);
uint32_t dgc_proved_check(bool wide, const uint8_t *module, size_t module_length, const uint8_t *certificate, size_t certificate_length,
                          uint8_t *room, size_t room_length, dgc_answer *answer);
uint32_t dgc_proved_make(bool wide, const uint8_t *module, size_t module_length, const uint8_t *shapes, size_t shapes_length,
                         uint8_t *room, size_t room_length, dgc_answer *answer);
size_t dgc_proved_explain(bool wide, const uint8_t *module, size_t module_length, const uint8_t *certificate, size_t certificate_length,
                          uint8_t *room, size_t room_length);
size_t dgc_proved_explain_make(bool wide, const uint8_t *module, size_t module_length, const uint8_t *shapes, size_t shapes_length,
                               uint8_t *room, size_t room_length);
uint32_t dgc_proved_open(bool wide, const uint8_t *module, size_t module_length, const uint8_t *certificate, size_t certificate_length,
                         uint8_t *room, size_t room_length, dgc_answer *answer, dgc_session *session);
uint32_t dgc_proved_apply(dgc_session session, const uint8_t *edits, size_t edits_length,
                          uint8_t *room, size_t room_length, dgc_answer *answer, dgc_session *moved);
void dgc_proved_close(dgc_session session);

/* The address of no bytes. Nothing is read or written there. */
static uint8_t none[1];

static const uint8_t *text(const uint8_t *at) { return at ? at : none; }
static uint8_t *space(uint8_t *at) { return at ? at : none; }

uint32_t dgc_interface(void) { return dgc_proved_interface(); }

size_t dgc_version(uint8_t *room, size_t room_length) { return dgc_proved_version(space(room), room_length); }

uint32_t dgc_check(bool wide, const uint8_t *module, size_t module_length, const uint8_t *certificate, size_t certificate_length,
                   uint8_t *room, size_t room_length, dgc_answer *answer) {
    return dgc_proved_check(wide, text(module), module_length, text(certificate), certificate_length, space(room), room_length, answer);
}

uint32_t dgc_make(bool wide, const uint8_t *module, size_t module_length, const uint8_t *shapes, size_t shapes_length,
                  uint8_t *room, size_t room_length, dgc_answer *answer) {
    return dgc_proved_make(wide, text(module), module_length, text(shapes), shapes_length, space(room), room_length, answer);
}

size_t dgc_explain(bool wide, const uint8_t *module, size_t module_length, const uint8_t *certificate, size_t certificate_length,
                   uint8_t *room, size_t room_length) {
    return dgc_proved_explain(wide, text(module), module_length, text(certificate), certificate_length, space(room), room_length);
}

size_t dgc_explain_make(bool wide, const uint8_t *module, size_t module_length, const uint8_t *shapes, size_t shapes_length,
                        uint8_t *room, size_t room_length) {
    return dgc_proved_explain_make(wide, text(module), module_length, text(shapes), shapes_length, space(room), room_length);
}

uint32_t dgc_open(bool wide, const uint8_t *module, size_t module_length, const uint8_t *certificate, size_t certificate_length,
                  uint8_t *room, size_t room_length, dgc_answer *answer, dgc_session *session) {
    return dgc_proved_open(wide, text(module), module_length, text(certificate), certificate_length, space(room), room_length, answer, session);
}

uint32_t dgc_apply(dgc_session session, const uint8_t *edits, size_t edits_length,
                   uint8_t *room, size_t room_length, dgc_answer *answer, dgc_session *moved) {
    return dgc_proved_apply(session, text(edits), edits_length, space(room), room_length, answer, moved);
}

void dgc_close(dgc_session session) {
    if (session.at)
        dgc_proved_close(session);
}
