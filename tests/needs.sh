#!/usr/bin/env bash
# What the archive asks of a board, read from its machine code: the symbols it needs, the registers besides the general ones that it
# touches, whether it uses the red zone, and the bytes of stack that each exported function takes with all it calls.
#   tests/needs.sh ARCHIVE [NM [OBJDUMP]]
# Stack is counted from the caller's stack pointer at the call, return address and red zone included, along every path of the code,
# and rounded up to a multiple of 8; of a symbol that the archive needs, only the return address is counted. Where the code is not of
# a kind that can be counted so, it says so and fails.
set -euo pipefail
archive=$1 nm=${2:-nm} objdump=${3:-objdump}

needed=$(comm -23 <("$nm" -u "$archive" | awk 'NF == 2 { print $2 }' | sort -u) <("$nm" --defined-only "$archive" | awk 'NF == 3 { print $3 }' | sort -u))
exported=$("$nm" -g --defined-only "$archive" | awk '$2 == "T" { print $3 }' | grep '^heechstjer_')

"$objdump" -dr --no-show-raw-insn "$archive" | awk -v needed="$(echo $needed)" -v exported="$(echo $exported)" '
    # A line "ADDRESS <FUNCTION>:".
    /^[0-9a-f]+ <.*>:$/ {
        close_function()
        name = $0
        sub(/^[0-9a-f]+ </, "", name)
        sub(/>:$/, "", name)
        count = 0
        next
    }
    # A relocation belongs to the instruction before it.
    $2 ~ /^R_X86_64_/ {
        if (count > 0) {
            target[count] = $3
            sub(/-0x4$/, "", target[count])
            sub(/^\.text\./, "", target[count])
        }
        next
    }
    /^ *[0-9a-f]+:\t/ {
        count++
        address = $1
        sub(/:$/, "", address)
        place[address] = count
        text = $0
        sub(/^ *[0-9a-f]+:\t/, "", text)
        sub(/ *#.*/, "", text)
        operation[count] = text
        sub(/ .*/, "", operation[count])
        operands[count] = text
        sub(/^[^ ]+ */, "", operands[count])
        target[count] = ""
        look(operation[count], operands[count])
    }
    END {
        if (failed)
            exit 1
        close_function()
        print "needs", needed
        print "vector registers", vector_registers()
        print "x87 and MMX registers", x87 ? "used" : "unused"
        print "mxcsr", mxcsr ? "used" : "unused"
        print "red zone", red ? "used" : "unused"
        n = split(exported, names, " ")
        for (i = 1; i <= n; i++)
            print "stack of " names[i], int((deepest(names[i]) + 7) / 8) * 8
    }

    # What one instruction touches.
    function look(op, args,   rest) {
        rest = args
        while (match(rest, /%[xyz]mm[0-9]+/)) {
            seen[substr(rest, RSTART + 1, RLENGTH - 1)] = 1
            rest = substr(rest, RSTART + RLENGTH)
        }
        if (args ~ /%(st|mm[0-7])/ || op ~ /^(f[a-z]|emms)/)
            x87 = 1
        if (op ~ /mxcsr$/ || op ~ /^(fx|x)(save|rstor)/ || op ~ /^v?(add|sub|mul|div|sqrt|rsqrt|rcp|min|max|hadd|hsub|addsub|round)[sp][sd]$/ ||
            op ~ /^v?(u?comis[sd]|cmp[a-z]*[sp][sd]|cvt.*)$/)
            mxcsr = 1
        if (match(args, /-0x[0-9a-f]+\(%rsp/) && hex(substr(args, RSTART + 1)) > below)
            below = hex(substr(args, RSTART + 1))
    }

    # The first and the last of each kind.
    function vector_registers(   i, k, kind, first, last, list) {
        split("xmm ymm zmm", kind, " ")
        for (k = 1; k <= 3; k++) {
            first = ""
            for (i = 0; i < 32; i++)
                if (kind[k] i in seen) {
                    last = kind[k] i
                    if (first == "")
                        first = last
                }
            if (first != "")
                list = list (list == "" ? "" : ", ") first " to " last
        }
        return list == "" ? "none" : list
    }

    # The depth before each instruction of a function, from its start on along its jumps; what it calls, and how deep.
    function close_function(   i, d, to, again, indirect) {
        if (name == "")
            return
        split("", depth)
        depth[1] = 8
        frame[name] = 8
        calls[name] = 0
        do {
            again = 0
            for (i = 1; i <= count; i++) {
                if (!(i in depth))
                    continue
                d = after(i, depth[i])
                if (d > frame[name])
                    frame[name] = d
                to = operands[i]
                sub(/ .*/, "", to)
                if (operation[i] ~ /^j/ && through_a_table(i))
                    indirect = d
                else if (operation[i] ~ /^j/ && target[i] == "")
                    again += reach(place[to], d)
                if (operation[i] !~ /^(jmp|ret|ud2|hlt)/ && i < count)
                    again += reach(i + 1, d)
            }
            # A jump through a table: whatever is not reached otherwise is reached by it.
            if (!again && indirect)
                for (i = 1; i <= count; i++)
                    if (!(i in depth)) {
                        again += reach(i, indirect)
                        break
                    }
        } while (again)
        for (i = 1; i <= count; i++)
            if (i in depth && target[i] != "" && operation[i] ~ /^(call|j)/ && !through_a_table(i)) {
                calls[name]++
                callee[name, calls[name]] = target[i]
                call_depth[name, calls[name]] = depth[i] - (operation[i] ~ /^j/ ? 8 : 0)
            } else if (i in depth && operation[i] ~ /^call/)
                cannot_tell(name ": " operation[i] " " operands[i])
        # Places below the stack pointer: in a function that calls nothing they are the red zone.
        if (below > 0 && calls[name] == 0) {
            red = 1
            frame[name] += below
        }
        name = ""
        below = 0
        split("", place)
    }

    # The place to go to stands in memory, and not in the table that the linker makes for symbols.
    function through_a_table(i) {
        return operands[i] ~ /^\*/ && operands[i] !~ /\(%rip\)$/
    }

    function reach(i, d) {
        if (i == "")
            cannot_tell(name ": a jump out of it")
        if (i in depth) {
            if (depth[i] != d)
                cannot_tell(name ": two depths at " operation[i] " " operands[i])
            return 0
        }
        depth[i] = d
        return 1
    }

    function after(i, d,   op, args) {
        op = operation[i]
        args = operands[i]
        if (op ~ /^push/)
            return d + 8
        if (op ~ /^pop/)
            return d - 8
        if (args ~ /,%rsp$/ && op !~ /^(cmp|test)/) {
            if (args !~ /^\$0x[0-9a-f]+,/ || op !~ /^(sub|add)/)
                cannot_tell(name ": " op " " args)
            return op ~ /^sub/ ? d + hex(args) : d - hex(args)
        }
        if (op ~ /^(leave|enter)/)
            cannot_tell(name ": " op)
        return d
    }

    # The number at the front of "0x12,%rsp"; one of 16 digits is below 0.
    function hex(args,   i, digits, value, less) {
        digits = args
        sub(/^\$?0x/, "", digits)
        sub(/[^0-9a-f].*/, "", digits)
        if (length(digits) == 16) {
            sub(/^f+/, "", digits)
            less = 16 ^ length(digits)
        }
        for (i = 1; i <= length(digits); i++)
            value = value * 16 + index("0123456789abcdef", substr(digits, i, 1)) - 1
        return value - less
    }

    function deepest(f,   i, d, most) {
        if (!(f in frame)) {
            if (index(" " needed " ", " " f " ") == 0)
                cannot_tell(f)
            return 8
        }
        most = frame[f]
        for (i = 1; i <= calls[f]; i++) {
            d = call_depth[f, i] + deepest(callee[f, i])
            if (d > most)
                most = d
        }
        return most
    }

    function cannot_tell(what) {
        print "needs.sh: cannot tell the stack of " what > "/dev/stderr"
        failed = 1
        exit 1
    }
'
