# Writes a program of many random instructions, by which two simulators can be compared: calculations, loads and stores
# in 512 bytes, and branches and jumps forward. It writes the same program each time. It runs by
#     awk -v many=1500 -f random.awk

# A number from 0 to n - 1.
function random(n) {
    seed = seed * 16807 % 2147483647
    return int(seed / 2147483647 * n)
}

# One of the registers from x4 on, mostly of the first six, so that results are used soon.
function register() { return "x" (random(4) ? 4 + random(6) : 10 + random(22)) }

function one_of(list,    parts, count) {
    count = split(list, parts, " ")
    return parts[1 + random(count)]
}

# An instruction up to its second register.
function begun(name,    first) {
    first = register()
    return "    " name " " first ", " register()
}

# An address in the memory for a load or a store of this name.
function offset(name) {
    if (name ~ /b/) return random(512)
    if (name ~ /h/) return 2 * random(256)
    return 4 * random(128)
}

BEGIN {
    seed = 47
    loads = "lb lbu lh lhu lw"
    stores = "sb sh sw"
    print "    .bss\n    .balign 16\nroom: .zero 512\n\n    .text\n    .globl main\nmain:"
    print "    lui x3, %hi(room)\n    addi x3, x3, %lo(room)"
    for (k = 4; k < 32; k++) print "    li x" k ", " random(2147483647)
    for (k = 0; k < many; k++) {
        if (k in label) print "at" k ":"
        kind = random(16)
        if (kind < 5) {
            line = begun(one_of("add sub xor add sub xor sll slt sltu srl sra or and"))
            print line ", " register()
        } else if (kind < 8) {
            line = begun(one_of("addi xori addi xori slti sltiu ori andi"))
            print line ", " random(4096) - 2048
        } else if (kind < 9) {
            line = begun(one_of("slli srli srai"))
            print line ", " random(32)
        } else if (kind < 10) {
            name = one_of("lui auipc")
            to = register()
            print "    " name " " to ", " random(1048576)
        } else if (kind < 13) {
            name = one_of(kind < 12 ? loads : stores)
            to = register()
            print "    " name " " to ", " offset(name) "(x3)"
        } else if (kind < 14) { # an address that is calculated
            name = one_of(loads " " stores)
            line = begun("andi")
            print line ", " (name ~ /b/ ? 511 : name ~ /h/ ? 510 : 508)
            split(line, part, /[ ,]+/)
            print "    add " part[3] ", " part[3] ", x3"
            print "    " name " " register() ", 0(" part[3] ")"
        } else {
            to = k + 1 + random(4)
            label[to] = 1
            if (kind < 15) line = begun(one_of("beq bne blt bge bltu bgeu"))
            else line = "    jal " (random(2) ? "zero" : register())
            print line ", at" to
        }
    }
    for (k = many; k < many + 4; k++) if (k in label) print "at" k ":"
    print "    li a0, 0\n    li a7, 93\n    j stop"
}
