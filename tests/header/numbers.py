"""Prints a C file that compiles only if the header's refusals are those of crates/refusals, name by name and number by number, and the
longest bundle is that of crates/bundle; run, it holds each meaning to document 01's words, as crates/refusals quotes them. Ends with a
failure where the Rust binding has another meaning or another version than the header."""
import re

HEADER = open("include/mahqurith.h").read()
REFUSALS = open("crates/refusals/src/lib.rt").read()
library = dict(re.findall(r"pub const (\w+): u32 = (\d+);", REFUSALS))
# A refusal's name is written as one word for each of the header's.
library |= {re.sub(r"(?<!^)(?=[A-Z])", "_", name).upper(): number for name, number in re.findall(r"Refusal::(\w+)(?: \{ height: _ \})? => (\d+),", REFUSALS)}
quoted = re.findall(r"^-- (.*)\nabbrev pub ([\w-]+) : ℕ\n\2 = (\d+)$", open("crates/refusals/specs/Lib.antt").read(), re.M)
# "the number above" is in 01 the number of bytes that it gives the call.
meanings = {int(number): words.replace("the number above", "the call's size").replace("the call is ", "") for words, _, number in quoted}

answers = re.search(r"enum \{\s*MAHQURITH_ACCEPTED.*?\};", HEADER, re.S).group(0)
named = re.findall(r"MAHQURITH_(\w+) =", answers)
if len(library) < 26 or sorted(named) != sorted(library):
    raise SystemExit(f"header: the header names {sorted(named)}, the library {sorted(library)}")
if sorted(meanings) != sorted(map(int, library.values())):
    raise SystemExit(f"header: crates/refusals has numbers {sorted(library.values())} and meanings for {sorted(meanings)}")

binding = open("bindings/rust/src/refusal.rs").read()
of_binding = {int(number): words for number, words in re.findall(r'^    (\d+) \w+ "(.*)",$', binding, re.M)}
of_binding[11] = re.search(r'Refusal::OutOfOrder \{ \.\. \} => "(.*)"', binding).group(1)
if of_binding != {number: words for number, words in meanings.items() if number > 0}:
    raise SystemExit(f"header: the Rust binding's meanings are {of_binding}")
version = [re.search(rf"#define MAHQURITH_VERSION_{part} (\d+)", HEADER).group(1) for part in ("MAJOR", "MINOR")]
cargo = re.search(r'^version = "(\d+)\.(\d+)\.\d+"$', open("bindings/rust/Cargo.toml").read(), re.M)
if list(cargo.groups()) != version:
    raise SystemExit(f"header: the header's version is {version}, the Rust binding's {cargo.groups()}")

print('#include "mahqurith.h"\n#include <stdio.h>\n#include <string.h>')
print("#ifdef __cplusplus\n#define HOLDS(what) static_assert(what, #what)\n#else\n#define HOLDS(what) _Static_assert(what, #what)\n#endif")
for name, number in library.items():
    print(f"HOLDS(MAHQURITH_{name} == {number});")
longest = re.search(r"pub const LONGEST: usize = (\d+);", open("crates/bundle/src/lib.rt").read()).group(1)
print(f"HOLDS(MAHQURITH_BUNDLE == {longest});")

print("static int differs(uint32_t number, const char *words)\n{")
print("    return strcmp(mahqurith_meaning(number), words) != 0 && fprintf(stderr, \"header: the meaning of %u\\n\", number) > 0;\n}")
print("int main(void)\n{\n    int wrong = 0;")
for number, words in sorted(meanings.items()):
    print(f'    wrong += differs({number}, "{words}");')
print(f'    wrong += differs({max(meanings) + 1}, "no answer of this library") + differs(UINT32_MAX, "no answer of this library");')
print(f'    if (wrong == 0)\n        puts("header: {len(meanings)} answers have document 01\'s meanings");')
print("    return wrong != 0;\n}")
