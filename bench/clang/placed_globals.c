/* Globals with a section, an alignment and a visibility. */
int data __attribute__((section("data_of_mine"))) = 1;
int wide __attribute__((aligned(64))) = 2;
int hidden __attribute__((visibility("hidden"))) = 3;
int weak __attribute__((weak)) = 4;
static int kept __attribute__((section("kept"), aligned(16))) = 5;
int use(void) { return kept++ + data + wide + hidden + weak; }
