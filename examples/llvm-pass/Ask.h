// What the passes ask of the program dgc.
#pragma once
#include "llvm/ADT/StringRef.h"
#include <string>

namespace dgc {
struct Answer {
  bool IsYes = false;
  std::string Text;  // what was asked for; of a refusal its line, as `no @f %b 2 K6`
  std::string Told;  // of a refusal: why
  unsigned Line = 0; // of a refusal: the line of the module's text, or 0 where it is of no line there
};
Answer make(llvm::StringRef Module, llvm::StringRef Shapes);       // a certificate that `check` accepts
Answer check(llvm::StringRef Module, llvm::StringRef Certificate); // whether the module is accepted
Answer lower(llvm::StringRef Module, llvm::StringRef Certificate); // the text for LLVM of an accepted module
} // namespace dgc
