"""Random programs in C, each the same for its seed. None has behaviour that C leaves open, but for what -fwrapv settles."""
from __future__ import annotations

import random

TYPES = ["uint8_t", "int8_t", "uint16_t", "int16_t", "uint32_t", "int32_t", "uint64_t", "int64_t"]
WIDE = ["uint32_t", "int32_t", "uint64_t", "int64_t"]
MEMBERS = ["m0", "m1", "m2", "m3", "m4"]

HEAD = """typedef __UINT8_TYPE__ uint8_t; typedef __UINT16_TYPE__ uint16_t; typedef __UINT32_TYPE__ uint32_t;
typedef __UINT64_TYPE__ uint64_t; typedef __INT8_TYPE__ int8_t; typedef __INT16_TYPE__ int16_t; typedef __INT32_TYPE__ int32_t;
typedef __INT64_TYPE__ int64_t; typedef __SIZE_TYPE__ size_t;
#ifdef __wasm__
#define EXPORT __attribute__((export_name("causal_t")))
#else
#define EXPORT
#endif
typedef struct { uint8_t m0; int16_t m1; uint32_t m2; uint64_t m3; int32_t m4; } S;
#define move __builtin_memmove
static inline int clz(uint64_t x){return x?__builtin_clzll(x):64;}
static inline int ctz(uint64_t x){return x?__builtin_ctzll(x):64;}
static inline uint32_t rot32(uint32_t x,uint32_t n){return x<<(n&31)|x>>(-n&31);}
static inline uint64_t rot64(uint64_t x,uint64_t n){return x<<(n&63)|x>>(-n&63);}
static inline double number(uint64_t x){return (double)(x>>7)*0x1p-30;}
static inline uint64_t bits(double d){uint64_t r;__builtin_memcpy(&r,&d,8);return d==d?r:1;}
#define U(n) static inline uint##n##_t divu##n(uint##n##_t a,uint##n##_t b){return b?a/b:a;} \\
 static inline uint##n##_t remu##n(uint##n##_t a,uint##n##_t b){return b?a%b:a;} \\
 static inline int##n##_t divs##n(int##n##_t a,int##n##_t b){return b&&b!=-1?a/b:a;} \\
 static inline int##n##_t rems##n(int##n##_t a,int##n##_t b){return b&&b!=-1?a%b:a;}
U(32) U(64)
"""

START = """S s[8];for(int i=0;i<8;i++){s[i].m0=(uint8_t)(seed>>i);s[i].m1=(int16_t)(seed*5);
s[i].m2=(uint32_t)seed^77;s[i].m3=seed*7;s[i].m4=(int32_t)seed;}uint64_t h=seed;
"""
END = "for(int i=0;i<8;i++)h=h*31+s[i].m0+(uint64_t)s[i].m1+s[i].m2+s[i].m3+(uint64_t)s[i].m4;return h;"


class Maker:
    """Makes one program. Its functions have the parameters x, y, r, p and fuel, and the variables u, v, w, s, a and q."""

    def __init__(self, seed: int) -> None:
        self.random = random.Random(seed)
        self.functions: list[str] = []
        self.loops = 0

    def pick(self, *choices: str) -> str:
        return self.random.choice(choices)

    def variable(self) -> str:
        return self.pick("x", "y", "u", "v", "w")

    def member(self) -> str:
        return self.pick(*MEMBERS)

    def literal(self) -> str:
        r = self.random
        value = r.choice([r.randrange(10), r.randrange(256), -r.randrange(1, 300), r.randrange(1 << 32), r.randrange(1 << 63),
                          0x80000000, 0x7FFFFFFF, (1 << 63) - 1, 0xFFFFFFFF])
        return f"({value})" if -(1 << 31) <= value < 1 << 31 else f"{value}u" if 0 <= value < 1 << 32 else f"{value}ull"

    # --- expressions

    def leaf(self) -> str:
        kinds = [self.variable] * 4 + [
            self.literal,
            lambda: f"table{self.random.randrange(2)}[{self.variable()}&15]",
            lambda: f"a[{self.variable()}&15]",
            lambda: f"s.{self.member()}",
            lambda: f"p[{self.variable()}&7].{self.member()}"]
        return self.random.choice(kinds)()

    def expression(self, depth: int) -> str:
        if depth <= 0 or self.random.random() < 0.1:
            return self.leaf()
        a, b, c = (self.expression(depth - 1 - self.random.randrange(2)) for _ in range(3))
        kind = self.random.randrange(4)
        return self.of_integers(a, b) if kind < 2 else self.of_words(a, b) if kind == 2 else self.of_others(a, b, c)

    def of_integers(self, a: str, b: str) -> str:
        """Operators of integers of one type."""
        wide = self.pick(*WIDE)
        bits = 31 if "32" in wide else 63
        return self.pick(
            f"(({wide})({a}){self.pick('+', '-', '*', '&', '|', '^')}({wide})({b}))",
            f"(({wide})({a}){self.pick('+', '-', '*', '&', '|', '^')}({wide})({b}))",
            f"(({wide})({a}){self.pick('<<', '>>')}(({b})&{bits}))",
            f"(({wide})({a}){self.pick('<', '<=', '>', '>=', '==', '!=')}({wide})({b}))",
            self.pick(f"(!({a}))", f"(~({wide})({a}))", f"(-({wide})({a}))"))

    def of_words(self, a: str, b: str) -> str:
        """Operations that are functions, and other types."""
        return self.pick(
            f"({self.pick(*TYPES)})({a})",
            f"(({self.pick(*TYPES)})({a})+({self.pick(*WIDE)})({b}))",
            f"{self.pick('div', 'rem')}{self.pick('u32', 'u64', 's32', 's64')}({a},{b})",
            self.pick(f"clz({a})", f"ctz({a})", f"__builtin_popcountll({a})", f"rot32({a},{b})", f"rot64({a},{b})"))

    def of_others(self, a: str, b: str, c: str) -> str:
        """Choices, numbers of 128 bits and doubles."""
        wide = f"(unsigned __int128)(uint64_t)({a})"
        return self.pick(
            f"(({a})?({b}):({c}))",
            f"(({a}){self.pick('&&', '||')}({b}))",
            f"(uint64_t)(({wide}*(uint64_t)({b}))>>{self.pick('64', '32', '1', '100')})",
            f"(uint64_t)((({wide}<<64|(uint64_t)({b})){self.pick('+', '-')}(uint64_t)({c}))>>{self.pick('64', '0', '7')})",
            f"bits(({self.pick('(double)(uint64_t)', 'number')}({a})){self.pick('+', '-', '*', '/')}number({b}))",
            f"(number({a}){self.pick('<', '<=', '==', '>')}(double)(uint64_t)({b}))")

    # --- statements

    def target(self) -> str:
        return self.pick(self.variable(), f"a[{self.variable()}&15]", f"s.{self.member()}", f"p[{self.variable()}&7].{self.member()}", "*q")

    def statement(self, depth: int) -> str:
        e = self.expression(3)
        kind = self.random.randrange(12)
        if kind > 9 and self.functions:  # C leaves the order of a call and of reads beside it open, so it stands alone
            call = f"{self.pick(*self.functions)}({e},{self.leaf()},&s,p,fuel-1)"
            return f"{{uint64_t c=(uint64_t){call};{self.target()}^=c;}}"
        if depth <= 0 or kind < 4:
            return f"{self.target()}{self.pick('=', '=', '+=', '^=', '-=', '*=', '|=')}{e};"
        return self.of_blocks(e, depth - 1) if kind < 7 else self.of_memory(e)

    def of_blocks(self, e: str, depth: int) -> str:
        body = "".join(self.statement(depth) for _ in range(self.random.randrange(1, 4)))
        kind = self.random.randrange(4)
        if kind < 2:
            other = f"else{{{self.statement(depth)}}}" if self.random.random() < 0.5 else ""
            return f"if({e}){{{body}}}{other}"
        if kind == 2:
            self.loops += 1
            i = f"i{self.loops}"
            skip = self.pick("", f"if(({self.expression(2)})&1)continue;", f"if(!(({self.expression(2)})&7))break;")
            return f"for(int {i}=0;{i}<{self.random.randrange(1, 9)};{i}++){{{skip}x+=(uint64_t){i};{body}}}"
        cases = "".join(f"case {i}:{self.statement(depth)}{self.pick('break;', '')}" for i in range(self.random.randrange(2, 7)))
        return f"switch(({e})&7){{{cases}default:{self.statement(depth)}}}"

    def of_memory(self, e: str) -> str:
        return self.pick(
            f"q=a+(({e})&15);*q=*q+1;",
            f"p[({e})&7]=s;s=p[({self.leaf()})&7];",
            f"move(a+({self.leaf()}&7),a+({self.leaf()}&7),(size_t)(({e})&31));",
            f"{{S t=p[({e})&7];t.m2+=1;p[({self.leaf()})&7]=t;if(fuel==0)return x;}}")

    # --- functions

    def function(self, name: str) -> str:
        self.loops = 0
        type = self.pick("uint64_t", "int32_t", "uint16_t", "int8_t")
        body = "".join(self.statement(2) + "\n" for _ in range(self.random.randrange(3, 8)))
        result = self.expression(3)
        self.functions.append(name)
        return (f"{self.pick('', '__attribute__((noinline)) ')}static {type} {name}(uint64_t x,int32_t y,S*r,S*p,int fuel)"
                f"{{if(fuel<=0)return (({type})x);\n"
                f"uint64_t u=x*3;int64_t v=(int64_t)y-7;uint32_t w=(uint32_t)x;S s=*r;uint64_t a[16];uint64_t*q=a+(x&15);\n"
                f"for(int i=0;i<16;i++)a[i]=x*(uint64_t)i+(uint64_t)y;\n{body}"
                f"for(int i=0;i<16;i++)u=u*31+a[i];*r=s;return ({type})(u^(uint64_t)v^w^(uint64_t)({result}));}}\n")

    def program(self) -> str:
        large = ",".join(f"{self.random.getrandbits(64)}ull" for _ in range(16))
        small = ",".join(str(self.random.randrange(-128, 128)) for _ in range(16))
        functions = "".join(self.function(f"g{i}") for i in range(self.random.randrange(1, 4)))
        calls = "".join(f"h=h*1000003+(uint64_t){name}(seed*{2 * i + 1}+{i},(int32_t)(seed>>7),&s[{i}],s,3);"
                        for i, name in enumerate(self.functions))
        return (f"{HEAD}static const uint64_t table0[16]={{{large}}};\nstatic const int8_t table1[16]={{{small}}};\n{functions}"
                f"EXPORT uint64_t causal_t(uint64_t seed){{{START}for(int i=0;i<3;i++){{{calls}}}\n{END}}}\n")
