#!/bin/sh
# What header and pages say of the library and the program, measured: no state, the stack, what is needed of libc, SSE2 alone,
# flags, the oldest glibc; that a status left alone is warned of; and that header and page say the same.
set -eu
cd "$(dirname "$0")/../.."
export LC_ALL=C     # the tools' words are read below
room=build/facts
mkdir -p "$room"

fail() {
    echo "facts: $1" >&2
    exit 1
}

# The tools of the compiler for x86-64.
tools=''
[ "$(uname -m)" = x86_64 ] || tools=x86_64-linux-gnu-

# ---- The calls of the header, no more and no fewer.

"${tools}nm" -g --defined-only build/libkelubashi.a | awk 'NF == 3 { print $3 }' | sort -u >"$room/symbols"
grep -o '^uint64_t kelubashi[0-9]*_[a-z_]*' include/kelubashi.h | cut -d ' ' -f 2 | sort -u >"$room/calls"
diff "$room/calls" "$room/symbols" || fail "the header's calls are marked <, the archive's symbols >"

# ---- No state, and nothing of libc but memset.

"${tools}nm" build/libkelubashi.a >"$room/names"
wanted=$(awk '$1 == "U" { print $2 }' "$room/names" | sort -u)
[ "$wanted" = memset ] || fail "the library needs of libc: $wanted"
"${tools}size" -A build/libkelubashi.a | awk '$1 ~ /^\.(data|bss|tdata|tbss)/ && $2 > 0' >"$room/state"
[ ! -s "$room/state" ] || fail "the library keeps state: $(cat "$room/state")"
sh tests/machine/x86.sh run build/tests/interface/facts || exit 1

# ---- SSE2 alone: no instruction but these, which every x86-64 has.

cat >"$room/known" <<'LIST'
adc add and bsf bsr bswap bt btc btr bts call cbtw cltd cltq cmp cqto cwtl cwtd dec div endbr64 idiv imul inc int3 jmp lea leave mov movabs movs movz
mul neg nop not or pop push ret rol ror sar sbb shl shld shr shrd stos sub test ud2 xchg xor data16 rep repz cs
addpd addps addsd addss andnpd andnps andpd andps comisd comiss cvtdq2pd cvtsd2si cvtsd2ss cvtsi2sd cvtss2sd cvttpd2dq cvttsd2si divpd divsd
maxpd maxsd minpd minsd movapd movaps movd movdqa movdqu movhlps movhpd movhps movlhps movlpd movlps movmskpd movmskps movq movsd movss movupd movups
mulpd mulsd orpd orps packssdw packsswb packuswb pand pandn por paddb paddd paddq paddw pcmpeqb pcmpeqd pcmpeqw pcmpgtb pcmpgtd pcmpgtw pinsrw pextrw
pmovmskb pmuludq pshufd pshufhw pshuflw pslld pslldq psllq psllw psrad psraw psrld psrldq psrlq psrlw psubb psubd psubq psubw punpckhbw punpckhdq
punpckhqdq punpckhwd punpcklbw punpckldq punpcklqdq punpcklwd pxor shufpd shufps sqrtpd sqrtsd subpd subsd ucomisd ucomiss unpckhpd unpckhps unpcklpd
unpcklps xorpd xorps
LIST
tr ' ' '\n' <"$room/known" | grep . | sort -u >"$room/list"
"${tools}objdump" -d --no-show-raw-insn build/libkelubashi.a | awk -F '\t' 'NF == 2 && $1 ~ /:$/ { split($2, w, " "); print w[1] }' | sort -u >"$room/used"
[ "$(wc -l <"$room/used")" -gt 30 ] || fail 'the instructions of the library are not found'
while read -r instruction; do
    # the ends that tell a width or a condition are left out
    case $instruction in
    j* | set* | cmov* | cmp*pd | cmp*sd) continue ;;
    esac
    for form in "$instruction" "${instruction%[bwlq]}" "$(echo "$instruction" | sed 's/^mov[sz][bwl][wlq]$/movs/')"; do
        if grep -qx -- "$form" "$room/list"; then
            continue 2
        fi
    done
    fail "the library has the instruction $instruction, which is not among those of SSE2 that are known here"
done <"$room/used"
if "${tools}objdump" -d --no-show-raw-insn build/libkelubashi.a | grep -qE '%[yz]mm|%xmm(1[6-9]|[23][0-9])|%k[0-7]'; then
    fail 'the library has registers newer than SSE2'
fi

# ---- The stack: each call below what is said, and not below half of it, so that what is said stays near.

sh tests/machine/x86.sh run build/tests/interface/stack >"$room/stack"
while read -r call bytes; do
    said=$(sed -n "s/^$call  *\([0-9,]*\) bytes\$/\1/p" man/kelubashi.3 | tr -d ,)
    [ -n "$said" ] || fail "man/kelubashi.3 does not say what stack $call needs"
    [ "$bytes" -le "$said" ] || fail "$call needs $bytes bytes of stack, and $said are said"
    [ $((bytes * 2)) -ge "$said" ] || fail "$call needs $bytes bytes of stack only, and $said are said"
    short=${call#kelubashi1_}
    comma=$(echo "$said" | sed 's/\([0-9]\)\([0-9][0-9][0-9]\)$/\1,\2/')
    sed -n '/^\*\*  need SSE2/,/^\*\*  .*(partials)/p' include/kelubashi.h | sed 's/^\*\*//' | tr -s '\n ' ' ' | grep -qE "$comma( bytes)? \(([a-z]+, )*$short(, [a-z]+)*\)" ||
        fail "include/kelubashi.h does not say that $short needs $comma bytes of stack"
done <"$room/stack"

# The program, in as much as its page says.
kilobytes=$(sed -n 's/.*needs \([0-9]*\) KB of stack.*/\1/p' man/propagate.1)
in_stack() {
    if [ "$(uname -m)" = x86_64 ]; then
        (ulimit -s "$1" && env -i build/propagate examples/orbits.elements)     # the environment stands on the stack too
    else
        QEMU_STACK_SIZE=$(($1 * 1024)) sh tests/machine/x86.sh run build/propagate examples/orbits.elements
    fi
}
in_stack "$kilobytes" >"$room/within" 2>"$room/said" || fail "the program does not run in $kilobytes KB of stack"
[ "$(wc -c <"$room/within")" -eq 1336 ] || fail "in $kilobytes KB of stack the program writes other results"
if in_stack $((kilobytes / 2)) >"$room/within" 2>"$room/said" && [ "$(wc -c <"$room/within")" -eq 1336 ]; then
    fail "the program runs in half of the $kilobytes KB of stack that are said"
fi

# ---- The oldest glibc of the program.

oldest=$("${tools}readelf" -V build/propagate | grep -o 'GLIBC_[0-9.]*' | sed 's/GLIBC_//' | sort -t . -k 1,1n -k 2,2n | tail -n 1)
said=$(sed -n 's/.*glibc \([0-9.]*\) or newer.*/\1/p' man/propagate.1)
[ "$(printf '%s\n%s\n' "$oldest" "$said" | sort -t . -k 1,1n -k 2,2n | tail -n 1)" = "$said" ] || fail "the program needs glibc $oldest, and $said is said"

# ---- A status that is not looked at, of any call, is warned of.

for call in 'kelubashi1_root(0, w, 1)' 'kelubashi1_propagate(0, 0, 0, 0, 0, 0, 0, 0, w, 15)' 'kelubashi1_partials(0, 0, 0, 0, 0, 0, 0, 0, w, 15, w, 36)' \
    'kelubashi1_read(b, 0, w, 8)' 'kelubashi1_write(w, 0, w, 0, w, 0, b, 0, w, 2)' 'kelubashi1_results(b, 0, b, 0, w, 2)' \
    'kelubashi1_interval(0, 0, w, 1)' 'kelubashi1_check(b, 0, w, 0, w, 2)' 'kelubashi1_compare(b, 0, b, 0, w, 0, w, 7)' \
    'kelubashi1_summary(w, 0, 0, 0, w, 0, w, 2)' 'kelubashi1_append(w, 0, w, 0, 0, 0, w, 0, w, 2)' 'kelubashi1_withdraw(0, w, 0, 0, 0, w, 0, w, 2)' \
    'kelubashi_propagate(0, d, d, 0, &a)' 'kelubashi_partials(0, d, d, 0, &a, p)'; do
    printf '#include "kelubashi.h"\nvoid f(uint64_t *w, uint8_t *b, double *d, double p[6][6]);\nvoid f(uint64_t *w, uint8_t *b, double *d, double p[6][6])\n{\n    struct kelubashi_answer a;\n    (void)w; (void)b; (void)d; (void)p; (void)a;\n    %s;\n}\n' "$call" >"$room/left.c"
    if sh tests/machine/x86.sh compile -std=c99 -Wall -Werror -Iinclude -c -o "$room/left.o" "$room/left.c" 2>"$room/said"; then
        fail "a status that is not looked at is not warned of: $call"
    fi
    grep -q 'unused-result' "$room/said" || fail "$call does not compile for another reason: $(cat "$room/said")"
done

# ---- The same in header and page.

for words in 'reentrant, and safe in several threads at once' 'SSE2 and nothing newer' 'raise floating-point flags'; do
    for file in include/kelubashi.h man/kelubashi.3; do
        sed 's/^\*\* *//' "$file" | tr -s '\n ' ' ' | grep -q "$words" || fail "$file does not say: $words"
    done
done
for file in man/propagate.1 man/kelubashi.1 man/kelubashi-results.1; do
    tr -s '\n ' ' ' <"$file" | grep -qE 'FIFO .*waited for|is a FIFO, the command waits' || fail "$file does not say what a FIFO does"
done
echo "facts: no state; memset alone; SSE2 alone, $(wc -l <"$room/used") instructions; stack of $(tr '\n' ' ' <"$room/stack" | sed 's/kelubashi1_//g')bytes; glibc $oldest"
