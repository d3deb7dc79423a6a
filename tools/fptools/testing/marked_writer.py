"""Writes random C with loop marks. A run on the host counts what each claim may state."""

import random
from collections.abc import Callable, Collection

BEGIN = """\
#ifdef HOST
#include "host_marks.h"
static volatile uint32_t sink;
#else
#include "flexpret.h"
#define sink FP_PORT
#endif
typedef uint32_t u32;
typedef int32_t i32;
static volatile u32 seed = %d;
static u32 arr[16] = {3, 1, 4, 1, 5, 9, 2, 6, 5, 3, 5, 8, 9, 7, 9, 3};
static inline u32 in(void) { u32 s = seed * 1664525u + 1013904223u; seed = s; return s >> 13; }
#define REPEAT(name, n, k) FP_LOOP(name, n); for (u32 r_##name = 0; r_##name < (k); r_##name++)
#define WHILE_IN(name, n, k) { FP_LOOP(name, n); u32 w_##name = 0; \\
    while (in() & 3 && w_##name++ < (k)) { FP_ROUND(name); sink = w_##name; } }
"""
MAIN = """
void start(void)
{
    for (u32 r = 0; r < 60; r++) { %s }
#ifndef HOST
    (&FP_PORT)[1] = 1;
    for (;;)
        ;
#endif
}
#ifdef HOST
int main(void)
{
    start();
    for (int k = 0; k < %d; k++)
        printf("#define N%%d %%u\\n", k, fp_most[k] ? fp_most[k] : 1);
    return 0;
}
#endif
"""
MOST_LOOPS = 9
VALUES = (
    "x", "y", "z", "x + 1", "y * 3", "z >> 1", "arr[x & 15]", "arr[z & 15]", "7", "(x ^ y)",
)  # fmt: skip
TESTS = (
    "(x & 7) == 3", "in() & 1", "x > y", "arr[x & 15] & 2", "(y & 3) == 0", "(in() & 7) == 0",
    "z & 4", "(i32)x < 0",
)  # fmt: skip
LIMITS = (
    "1", "2", "3", "4", "5", "8", "9", "12", "(x & 7)", "(y & 3)", "((z & 3) + 1)", "(x & 1)",
    "(arr[y & 15] & 7)", "0",
)  # fmt: skip
KINDS = (
    "static ", "static ", "static inline ", "__attribute__((noinline)) static ",
    "static inline __attribute__((always_inline)) ",
)  # fmt: skip
ATTRIBUTES = ('optimize("O3")', 'optimize("O1")', 'optimize("unroll-loops")', "flatten")


class Writer:
    """Writes a program. Statements can be left out by their numbers; the others stay the same."""

    def __init__(self, seed: str, is_cpp: bool, left_out: Collection[int] = ()) -> None:
        self.random = random.Random(seed)
        self.is_cpp, self.left_out = is_cpp, left_out
        self.loops = self.statements = 0
        self.is_odd = self.chance(0.35)  # whether marks are where they shouldn't be
        self.functions: list[str] = []

    def pick(self, *of: str) -> str:
        return self.random.choice(of)

    def chance(self, share: float) -> bool:
        return self.random.random() < share

    def value(self) -> str:
        return self.pick(*VALUES)

    def test(self) -> str:
        return self.pick(*TESTS)

    def block(self, depth: int, inside: list[str], most: int = 4) -> str:
        return "".join(self.statement(depth, inside) for _ in range(self.random.randint(1, most)))

    def statement(self, depth: int, inside: list[str]) -> str:
        """A statement. `inside` has the names of the loops around it, and "switch", from within."""
        number = self.statements
        self.statements += 1
        made = self._statement(depth, inside)
        return ";\n" if number in self.left_out else made

    def _statement(self, depth: int, inside: list[str]) -> str:
        kind = self.random.random()
        if depth > 0 and kind < 0.38 and self.loops < MOST_LOOPS:
            return self.loop(depth - 1, inside)
        if depth > 0 and kind < 0.48:
            other = f" else {{ {self.block(depth - 1, inside, 2)} }}" if self.chance(0.5) else ""
            return f"if ({self.test()}) {{ {self.block(depth - 1, inside, 2)} }}{other}\n"
        if depth > 0 and kind < 0.53:
            return self.switch(depth, inside)
        if kind < 0.60 and self.functions:
            return f"{self.pick('x', 'y', 'z')} += {self.pick(*self.functions)}({self.value()});\n"
        if kind < 0.68 and inside and inside[0] != "switch":
            return f"if ({self.test()}) {self.pick('break', 'continue', 'break')};\n"
        if kind < 0.75:
            return self.leaving(kind, inside)
        return self.plain(kind)

    def leaving(self, kind: float, inside: list[str]) -> str:
        names = [it for it in inside if it != "switch"]
        if kind < 0.70:
            return f"if ({self.test()} && {self.test()}) return {self.value()};\n"
        if kind < 0.72 and len(inside) > 1:
            return f"if ({self.test()} && x & 1) goto done;\n"
        if kind >= 0.72 and names and self.is_odd:
            round_ = f"FP_ROUND({self.pick(*names)});"
            return f"{round_}\n" if self.chance(0.6) else f"if ({self.test()}) {round_}\n"
        return self.plain(0.8)

    def plain(self, kind: float) -> str:
        if kind < 0.80:
            return f"sink = {self.value()};\n"
        if kind < 0.84:
            return f"x = in(){self.pick('', ' & 255', ' % 11')};\n"
        one, other = self.value(), self.value()
        return self.pick(
            f"arr[{one} & 15] = {other};\n",
            f"x ^= {one};\n",
            f"y += {one};\n",
            f"z = z * 5 + {one};\n",
            "z += arr[y & 15] / 3;\n",
        )

    def switch(self, depth: int, inside: list[str]) -> str:
        cases = ""
        for k in range(self.random.randint(2, 6)):
            end = self.pick("break;", "break;", "/* fall through */;")
            cases += f"case {k}: {{ {self.block(depth - 1, ['switch', *inside], 2)} }} {end}\n"
        return f"switch ({self.value()} & 7) {{ {cases} default: z++; }}\n"

    def loop(self, depth: int, inside: list[str]) -> str:
        k = self.loops
        self.loops += 1
        name, own = f"l{k}", [f"l{k}", *inside]
        enter, round_ = f"FP_LOOP({name}, N{k});", f"FP_ROUND({name});"
        body = self.body(depth, own, round_)
        form = self.form(k, body)
        odd = self.random.random() if self.is_odd else 1.0
        if odd < 0.06 and not self.is_cpp:
            return f"{{ if ({self.test()}) goto s{k}; {enter} s{k}: ; {form} }}\n"
        if odd < 0.10:
            other = f"FP_LOOP({name}b, N{k}); {body} FP_ROUND({name}b);"
            head = f"for (u32 i{k} = 0; i{k} < {self.pick(*LIMITS)}; i{k}++)"
            return f"{{ {enter} {head} {{ {other} }} }}\n"
        if odd < 0.14:
            return f"{{ {enter} {form} {round_} }}\n"
        if self.chance(0.04):
            return f"WHILE_IN({name}, N{k}, 5)\n"
        if self.chance(0.04):
            return f"{{ REPEAT({name}, N{k}, {self.pick(*LIMITS)}) {{ {body} }} }}\n"
        return f"{{ {enter} {form} }}\n"

    def body(self, depth: int, own: list[str], round_: str) -> str:
        """The body of a loop, with its FP_ROUND."""
        before = self.statement(0, own) if self.chance(0.15) else ""
        body = f"{before}{round_} {self.block(depth, own, 3)}"
        if self.is_odd and self.chance(0.1):
            body = f"{self.pick('if (x & 1) ', '')}{round_} {body}"
        if self.is_odd and self.chance(0.07):
            body = self.block(depth, own, 3) + round_
        return body

    def form(self, k: int, body: str) -> str:
        """A loop of some form around a body."""
        i, low, step = f"i{k}", self.random.randint(0, 3), self.random.choice([1, 1, 2, 3])
        limit, test = self.pick(*LIMITS), self.test()
        unroll = (
            f"\n#pragma GCC unroll {self.random.choice([2, 3, 4, 8])}\n"
            if self.chance(0.15)
            else ""
        )
        whole = f"do {{ {body} }} while (0);"  # break and continue are of a loop
        forms = [
            f"{unroll}for (u32 {i} = 0; {i} < {limit}; {i}++) {{ {body} }}",
            f"{unroll}for (i32 {i} = {low}; {i} <= (i32){limit}; {i} += {step}) {{ {body} }}",
            f"{unroll}for (u32 {i} = {limit}; {i} > 0; {i}--) {{ {body} }}",
            f"{unroll}for (i32 {i} = {limit}; {i} >= 0; {i}--) {{ {body} }}",
            f"u32 {i} = {limit}; while ({i}--) {{ {body} }}",
            f"u32 {i} = 0; do {{ {body} }} while (++{i} < {limit});",
            f"u32 {i} = 0; for (;;) {{ {body} if ({i}++ >= {limit} || {test}) break; }}",
            f"u32 {i} = 0; for (;;) {{ if ({i}++ >= {limit}) break; {body} }}",
            f"u32 {i} = 0; while (({test}) && {i} < 6) {{ {i}++; {body} }}",
            f"const u32 n{i} = {limit}; u32 {i} = 0; "
            f"a{k}: if ({i} < n{i}) {{ {whole} {i}++; goto a{k}; }}",
            f"u32 {i} = 0; a{k}: {whole} if (++{i} < {limit} && {test}) goto a{k};",
            f"for (const u32 *{i} = arr; {i} < arr + {limit}; {i}++) {{ x += *{i}; {body} }}",
            f"for (u32 {i} = 0, m{i} = 20; {i} < m{i}; {i} += 2, m{i} -= 3) {{ {body} }}",
            f"u32 {i} = 0; a{k}: {whole} if (++{i} < 4) goto a{k};",
        ]
        if not self.is_cpp and self.chance(0.02):
            to = f"void *to{i}[] = {{ &&a{k}, &&b{k} }};"
            return f"u32 {i} = 0; {to} a{k}: {whole} goto *to{i}[!(++{i} < {limit})]; b{k}: ;"
        return self.random.choice(forms)

    def function(self, number: int) -> str:
        kind = self.pick(*KINDS)
        if self.chance(0.12) and "always" not in kind:
            kind += f"__attribute__(({self.pick(*ATTRIBUTES)})) "
        body = self.block(3, [], 4)
        self.functions.append(f"f{number}")
        end = "if (0) goto done; done: return x + y + z;"
        return f"{kind}u32 f{number}(u32 x) {{ u32 y = x * 7, z = x >> 3;\n{body} {end} }}\n"

    def program(self) -> str:
        text = BEGIN % self.random.randint(1, 1 << 30)
        for number in range(self.random.randint(1, 3)):
            text += self.function(number)
        calls = " ".join(f"sink = {name}(in());" for name in self.functions)
        c = 'extern "C" void start(void);' if self.is_cpp else "void start(void);"
        return f"{text}{c}{MAIN % (calls, self.loops)}"


def shrunk(seed: str, is_cpp: bool, fails: Callable[[str], bool]) -> str:
    """A smaller program of a seed for which something fails too: as many statements as possible
    are left out, the outer ones first."""
    whole = Writer(seed, is_cpp)
    whole.program()
    left_out: set[int] = set()
    for number in range(whole.statements):
        if fails(Writer(seed, is_cpp, left_out | {number}).program()):
            left_out.add(number)
    return Writer(seed, is_cpp, left_out).program()
