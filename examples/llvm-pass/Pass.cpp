// The passes dgc-check, dgc-lower and dgc-mark, for LLVM 14 and later. README.md says how to use them.
#include "Ask.h"
#include "llvm/ADT/StringSet.h"
#include "llvm/AsmParser/Parser.h"
#include "llvm/IR/AssemblyAnnotationWriter.h"
#include "llvm/IR/DebugInfo.h"
#include "llvm/IR/DiagnosticInfo.h"
#include "llvm/IR/InstIterator.h"
#include "llvm/IR/IntrinsicInst.h"
#include "llvm/IR/Module.h"
#include "llvm/IR/Verifier.h"
#include "llvm/Linker/Linker.h"
#include "llvm/Passes/PassBuilder.h"
#if __has_include("llvm/Plugins/PassPlugin.h")
#include "llvm/Plugins/PassPlugin.h"
#else
#include "llvm/Passes/PassPlugin.h"
#endif
#include "llvm/Support/FileSystem.h"
#include "llvm/Support/FormattedStream.h"
#include "llvm/Support/MemoryBuffer.h"
#include "llvm/Support/Path.h"
#include "llvm/Support/SourceMgr.h"
#include "llvm/Transforms/Utils/Cloning.h"
#include "llvm/Transforms/Utils/ModuleUtils.h"
#include <optional>

using namespace llvm;

namespace {

/// The text of a named metadata node: a line for each string, and for each constant of a named struct the struct's name.
std::string metadataText(const Module &M, StringRef Name) {
  std::string Text;
  const NamedMDNode *Node = M.getNamedMetadata(Name);
  for (unsigned I = 0; Node && I < Node->getNumOperands(); ++I)
    for (const MDOperand &Word : Node->getOperand(I)->operands()) {
      auto *Value = mdconst::dyn_extract_or_null<Constant>(Word);
      if (auto *String = dyn_cast_or_null<MDString>(Word.get()))
        Text += String->getString().str() + "\n";
      else if (auto *Struct = Value ? dyn_cast<StructType>(Value->getType()) : nullptr)
        Text += Struct->getName().str() + "\n";
    }
  return Text;
}

/// A text that comes with a module: in its metadata !dgc.WORD, or else in the file that DGC_WORD names, or in the file MODULE.WORD of the
/// folder that DGC_WORD names. An empty one where there is none, and nothing after an error.
std::optional<std::string> given(const Module &M, StringRef Word) {
  std::string Text = metadataText(M, ("dgc." + Word).str());
  const char *Named = getenv(("DGC_" + Word.upper()).c_str());
  if (!Text.empty() || !Named)
    return Text;
  std::string Path = Named;
  if (sys::fs::is_directory(Path)) {
    Path += ("/" + sys::path::stem(M.getModuleIdentifier()) + "." + Word).str();
    if (!sys::fs::exists(Path))
      return Text;
  }
  if (auto Buffer = MemoryBuffer::getFile(Path))
    return (*Buffer)->getBuffer().str();
  M.getContext().emitError("dgc: " + Path + " cannot be read");
  return std::nullopt;
}

/// What dgc reads of a module, and at which line of the text each function and each instruction begins.
struct Reading : AssemblyAnnotationWriter {
  std::string Text, Certificate;
  std::vector<std::pair<unsigned, const Value *>> Places;
  void emitFunctionAnnot(const Function *F, formatted_raw_ostream &Out) override { Places.emplace_back(Out.getLine() + 1, F); }
  void emitInstructionAnnot(const Instruction *I, formatted_raw_ostream &Out) override { Places.emplace_back(Out.getLine() + 1, I); }

  /// The function or the instruction to which a line belongs.
  const Value *at(unsigned Line) const {
    const Value *Found = nullptr;
    for (auto &[First, Of] : Places)
      Found = Line && First <= Line ? Of : Found;
    return Found;
  }
};

/// Reads the text of a module, without debug information and named metadata, since dgc does not read all of these. The layouts, a name each
/// line, come first: the number in a call of dg_alloc is that of a struct in the text, and LLVM prints structs in the order of their uses,
/// and none without a use. Says whether all layouts are there.
bool readText(const Module &M, StringRef Layouts, Reading &Result) {
  ValueToValueMapTy Copied;
  std::unique_ptr<Module> Copy = CloneModule(M, Copied);
  DenseMap<const Value *, const Value *> Originals;
  for (const Function &F : M) {
    Originals[Copied.lookup(&F)] = &F;
    for (const Instruction &I : instructions(F))
      Originals[Copied.lookup(&I)] = &I;
  }
  StripDebugInfo(*Copy);
  for (NamedMDNode &Node : make_early_inc_range(Copy->named_metadata()))
    Node.eraseFromParent();
  for (Function &F : make_early_inc_range(*Copy)) // dgc reads no declaration of llvm.dbg.value
    if (F.isIntrinsic() && F.use_empty())
      F.eraseFromParent();
  std::string All;
  raw_string_ostream Out(All);
  Copy->print(Out, &Result);

  StringSet<> First;
  SmallVector<StringRef, 8> Names, Lines;
  Layouts.split(Names, '\n', -1, false);
  for (StringRef Name : Names) {
    StructType *Struct = StructType::getTypeByName(M.getContext(), Name.trim());
    if (!Struct) {
      M.getContext().emitError("dgc: the module has no struct " + Name.trim() + ", which is one of its layouts");
      return false;
    }
    std::string Line;
    raw_string_ostream(Line) << *Struct;
    First.insert(Line);
    Result.Text += Line + "\n";
  }
  size_t Added = Names.size();
  StringRef(Out.str()).split(Lines, '\n');
  for (StringRef Line : Lines)
    if (First.count(Line))
      --Added;
    else
      Result.Text += Line.str() + "\n";
  for (auto &[Line, Of] : Result.Places) {
    Line += Added;
    Of = Originals.lookup(Of);
  }
  return true;
}

/// An error at what is refused: with its place in the source where the module has debug information.
void refuse(const Module &M, const Reading &Read, const dgc::Answer &Answer) {
  std::string Said = "dgc: " + StringRef(Answer.Text).rtrim().str() + (Answer.Told.empty() ? "" : ":\n" + Answer.Told);
  const Value *At = Read.at(Answer.Line);
  auto *I = dyn_cast_or_null<Instruction>(At);
  auto *F = I ? I->getFunction() : dyn_cast_or_null<Function>(At);
  if (!F)
    return M.getContext().emitError(StringRef(Said).rtrim());
  DiagnosticLocation Place = I && I->getDebugLoc() ? DiagnosticLocation(I->getDebugLoc()) : DiagnosticLocation(F->getSubprogram());
  M.getContext().diagnose(DiagnosticInfoUnsupported(*F, StringRef(Said).rtrim(), Place, DS_Error));
}

/// What dgc reads of a module that it accepts. Nothing after an error.
std::optional<Reading> check(const Module &M) {
  auto Certificate = given(M, "cert"), Shapes = given(M, "shapes"), Layouts = given(M, "layouts");
  Reading Read;
  if (!Certificate || !Shapes || !Layouts || !readText(M, *Layouts, Read))
    return std::nullopt;
  dgc::Answer Answer = Certificate->empty() ? dgc::make(Read.Text, *Shapes) : dgc::check(Read.Text, *Certificate);
  if (!Answer.IsYes) {
    refuse(M, Read, Answer);
    return std::nullopt;
  }
  Read.Certificate = Certificate->empty() ? Answer.Text : *Certificate;
  return Read;
}

bool isCollected(const Function &F) { return !F.isDeclaration() && F.hasGC() && F.getGC() == "shadow-stack"; }

bool isCallOf(const Instruction *I, StringRef Name) {
  auto *Call = dyn_cast_or_null<CallInst>(I);
  return Call && Call->getCalledFunction() && Call->getCalledFunction()->getName() == Name;
}

/// Gives the instructions of a lowered function their places in the source. They come in the order of the old ones, with additions: before
/// what they serve calls of dg_end and instructions with a name of dgc's own, and a store after each alloca and each call of llvm.gcroot.
void keepPlaces(const Function &Old, Function &New) {
  DISubprogram *Subprogram = Old.getSubprogram();
  if (!Subprogram)
    return;
  New.setSubprogram(Subprogram);
  DebugLoc Nowhere = DILocation::get(New.getContext(), 0, 0, Subprogram); // LLVM wants a place for each call in such a function
  auto From = Old.begin();
  for (BasicBlock &Block : New) {
    auto At = From->begin(), End = From->end();
    const Instruction *Last = nullptr;
    for (Instruction &I : Block) {
      while (At != End && isa<DbgInfoIntrinsic>(*At))
        ++At;
      I.setDebugLoc(At != End && At->getDebugLoc() ? At->getDebugLoc() : Nowhere);
      bool IsAdded = I.getName().take_front(3) == "dg." || isCallOf(&I, "dg_end") ||
                     (isa<StoreInst>(I) && (isa_and_nonnull<AllocaInst>(Last) || isCallOf(Last, "llvm.gcroot")));
      if (!IsAdded && At != End)
        ++At;
      Last = &I;
    }
    if (++From == Old.end())
      return;
  }
}

/// Puts the functions and globals of a lowered module into the place of the old ones. The old module's metadata stays.
void replace(Module &M, std::unique_ptr<Module> Lowered) {
  std::vector<std::pair<GlobalValue *, std::string>> Old;
  for (GlobalValue &Value : M.global_values())
    if (Value.getName().take_front(5) != "llvm.") {
      Old.emplace_back(&Value, Value.getName().str());
      Value.setName("");
    }
  if (Linker::linkModules(M, std::move(Lowered)))
    report_fatal_error("dgc: the lowered module cannot be linked");
  for (auto &[Value, Name] : Old)
    if (auto *F = dyn_cast<Function>(Value)) {
      if (!F->isDeclaration())
        keepPlaces(*F, *M.getFunction(Name));
      F->deleteBody();
    } else if (auto *G = dyn_cast<GlobalVariable>(Value))
      G->setInitializer(nullptr);
  for (auto &[Value, Name] : Old) {
    Value->replaceAllUsesWith(UndefValue::get(Value->getType()));
    Value->eraseFromParent();
  }
}

/// Refers to the symbol of the runtime's interface, so that no runtime of another one is linked.
void wantInterface(Module &M) {
  Constant *Version = M.getOrInsertGlobal("dg_interface_" DGC_INTERFACE, Type::getInt32Ty(M.getContext()));
  appendToUsed(M, {new GlobalVariable(M, Version->getType(), true, GlobalValue::InternalLinkage, Version, "dg_interface_wanted")});
}

/// Puts what dgc lowers of an accepted module into its place, and says whether it did so.
bool lower(Module &M, ModuleAnalysisManager &MAM) {
  auto Read = check(M);
  dgc::Answer Answer = Read ? dgc::lower(Read->Text, Read->Certificate) : dgc::Answer();
  if (Read && !Answer.IsYes)
    refuse(M, *Read, Answer);
  if (!Answer.IsYes)
    return false;
  std::string Why;
  raw_string_ostream Out(Why);
  SMDiagnostic Fault;
  auto Lowered = parseAssemblyString("target datalayout = \"" + M.getDataLayoutStr() + "\"\n" + Answer.Text, Fault, M.getContext());
  if (!Lowered || verifyModule(*Lowered, &Out)) {
    M.getContext().emitError("dgc: LLVM does not take the lowered text: " + Fault.getMessage() + Out.str());
    return false;
  }
  Lowered->setTargetTriple(M.getTargetTriple());
  MAM.getResult<FunctionAnalysisManagerModuleProxy>(M).getManager().clear();
  replace(M, std::move(Lowered));
  wantInterface(M);
  return true;
}

/// C has no word for gc "shadow-stack": a function that calls llvm.gcroot gets it here. The lifetime markers of its variables go.
void mark(Function &F) {
  if (none_of(instructions(F), [](Instruction &I) { return isCallOf(&I, "llvm.gcroot"); }))
    return;
  F.setGC("shadow-stack");
  for (Instruction &I : make_early_inc_range(instructions(F)))
    if (I.isLifetimeStartOrEnd())
      I.eraseFromParent();
}

enum class Work { Check, Lower, Mark };

struct Pass : PassInfoMixin<Pass> {
  Work Wanted;
  explicit Pass(Work Wanted) : Wanted(Wanted) {}
  PreservedAnalyses run(Module &M, ModuleAnalysisManager &MAM) {
    bool IsChanged = Wanted == Work::Mark;
    if (Wanted == Work::Mark)
      for_each(M, mark);
    else if (any_of(M, isCollected))
      IsChanged = Wanted == Work::Lower ? lower(M, MAM) : (check(M), false);
    return IsChanged ? PreservedAnalyses::none() : PreservedAnalyses::all();
  }
  static bool isRequired() { return true; } // at -O0 and in functions with optnone too
};

/// Marks stand at the start of a pipeline. At its end stands dgc-lower, or dgc-check where DGC_LOWER is `no`.
void registerPasses(PassBuilder &PB) {
  PB.registerPipelineParsingCallback([](StringRef Name, ModulePassManager &MPM, ArrayRef<PassBuilder::PipelineElement>) {
    for (auto [Word, Wanted] : {std::pair("dgc-check", Work::Check), std::pair("dgc-lower", Work::Lower), std::pair("dgc-mark", Work::Mark)})
      if (Name == Word) {
        MPM.addPass(Pass(Wanted));
        return true;
      }
    return false;
  });
  PB.registerPipelineStartEPCallback([](ModulePassManager &MPM, auto...) { MPM.addPass(Pass(Work::Mark)); });
  PB.registerOptimizerLastEPCallback([](ModulePassManager &MPM, auto...) {
    const char *Lowers = getenv("DGC_LOWER");
    MPM.addPass(Pass(Lowers && StringRef(Lowers) == "no" ? Work::Check : Work::Lower));
  });
}

} // namespace

extern "C" LLVM_ATTRIBUTE_WEAK PassPluginLibraryInfo llvmGetPassPluginInfo() {
  return {LLVM_PLUGIN_API_VERSION, "dgc", "1", registerPasses};
}
