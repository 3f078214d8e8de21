// Asks the program dgc: the one that the variable DGC names, or else that of PATH.
#include "Ask.h"
#include "llvm/ADT/SmallVector.h"
#include "llvm/ADT/Twine.h"
#include "llvm/Config/llvm-config.h"
#include "llvm/Support/FileSystem.h"
#include "llvm/Support/MemoryBuffer.h"
#include "llvm/Support/Program.h"
#include "llvm/Support/raw_ostream.h"
#include <cstdlib>
#if LLVM_VERSION_MAJOR < 16
#include "llvm/ADT/Optional.h"
using Redirect = llvm::Optional<llvm::StringRef>;
#else
#include <optional>
using Redirect = std::optional<llvm::StringRef>;
#endif

using namespace llvm;

namespace {

void write(const std::string &Path, StringRef Text) {
  std::error_code Error;
  raw_fd_ostream Out(Path, Error);
  if (!Error)
    Out << Text;
}

std::string read(const std::string &Path) {
  auto Buffer = MemoryBuffer::getFile(Path);
  return Buffer ? (*Buffer)->getBuffer().str() : std::string();
}

dgc::Answer refused(const Twine &Text) { return {false, Text.str(), "", 0}; }

/// What `dgc COMMAND MODULE ..` says, with its files in a folder. The second text is the certificate, or the shapes for `make`.
dgc::Answer askIn(const std::string &Folder, StringRef Command, StringRef Module, StringRef Second) {
  const char *Named = getenv("DGC"), *Forms = getenv("DGC_FORMS");
  auto Program = sys::findProgramByName(Named ? Named : "dgc");
  if (!Program)
    return refused("the program dgc is not found: DGC names it");
  bool IsMake = Command == "make";
  std::string ModulePath = Folder + "module.ll", SecondPath = Folder + (IsMake ? "module.shapes" : "module.cert");
  write(ModulePath, Module);
  write(SecondPath, IsMake && Second.empty() ? "shapes 1\n" : Second);
  SmallVector<StringRef, 12> Words = {"dgc", Command, ModulePath};
  if (IsMake)
    Words.append({"--why", "--shapes"});
  Words.push_back(SecondPath);
  if (Command != "lower")
    Words.append({"--explain", "always"});
  if (Forms)
    Words.append({"--forms", Forms});
  std::string Out = (Twine(Folder) + Command + ".out").str(), Err = Folder + "err", Why;
  int Status = sys::ExecuteAndWait(*Program, Words, {}, {Redirect(""), Redirect(Out), Redirect(Err)}, 0, 0, &Why);
  if (Status == 0)
    return {true, read(Out), "", 0};
  if (Status < 0)
    return refused(*Program + " does not end: " + Why);

  // A refusal is one line on either output, and what explains it comes on the second one. `make` says `no answer` before it.
  std::string Said = (IsMake ? "" : read(Out)) + read(Err);
  auto [Line, Told] = StringRef(Said).split('\n');
  dgc::Answer Answer = {false, (IsMake ? "no certificate is found: " : "") + Line.str(), Told.str(), 0};
  if (Told.consume_front(ModulePath + ":"))
    Told.consumeInteger(10, Answer.Line);
  for (size_t At; (At = Answer.Told.find(Folder)) != std::string::npos;)
    Answer.Told.erase(At, Folder.size());
  return Answer;
}

dgc::Answer ask(StringRef Command, StringRef Module, StringRef Second) {
  if (const char *Kept = getenv("DGC_KEEP"))
    return askIn(std::string(Kept) + "/", Command, Module, Second);
  SmallString<128> Folder;
  if (sys::fs::createUniqueDirectory("dgc-pass", Folder))
    return refused("no folder can be made for dgc");
  dgc::Answer Answer = askIn((Folder + "/").str(), Command, Module, Second);
  sys::fs::remove_directories(Folder);
  return Answer;
}

} // namespace

dgc::Answer dgc::make(StringRef Module, StringRef Shapes) { return ask("make", Module, Shapes); }
dgc::Answer dgc::check(StringRef Module, StringRef Certificate) { return ask("check", Module, Certificate); }
dgc::Answer dgc::lower(StringRef Module, StringRef Certificate) { return ask("lower", Module, Certificate); }
