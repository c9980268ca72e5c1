# Machine mode on QEMU's virt board: start, traps, and calls in user mode.
    .section .text.start, "ax"
    .globl _start
_start:
    csrr  t0, mhartid
    bnez  t0, park
    la    sp, stack_top
    la    t0, trap_stack_top
    csrw  mscratch, t0
    la    t0, trap_entry
    csrw  mtvec, t0
    li    t0, 0x600            # mstatus.VS: vector instructions run, if the board has them
    csrs  mstatus, t0
    la    t0, bss_start
    la    t1, bss_end
1:  bgeu  t0, t1, 2f
    sd    zero, 0(t0)
    addi  t0, t0, 8
    j     1b
2:  call  main
park:
    wfi
    j     park

    .text
# call_user(function, ten arguments, top of its stack): calls the function in user mode, where physical memory protection holds, and
# returns its result. The last two arguments go on the stack.
    .globl call_user
call_user:
    addi  sp, sp, -112
    sd    ra, 0(sp)
    .irp  r, 0,1,2,3,4,5,6,7,8,9,10,11
    sd    s\r, 8+8*\r(sp)
    .endr
    la    t0, machine_sp
    sd    sp, 0(t0)
    csrw  mepc, a0
    li    t0, 0x1800           # mstatus.MPP = user
    csrc  mstatus, t0
    mv    t0, a1
    addi  sp, a2, -16
    ld    t1, 64(t0)
    sd    t1, 0(sp)
    ld    t1, 72(t0)
    sd    t1, 8(sp)
    .irp  r, 0,1,2,3,4,5,6,7
    ld    a\r, 8*\r(t0)
    .endr
    la    ra, user_exit
    mret
    .globl user_exit
user_exit:
    ecall

    .globl just_return
just_return:
    ret

# The fences of this board, which has none: a trap that tells kind, address and SDID.
    .globl fence_domain
fence_domain:
    mv    a2, a0
    li    a0, 1
    j     tell
    .globl fence_address
fence_address:
    mv    a2, a1
    mv    a1, a0
    li    a0, 2
    j     tell
    .globl fence_all
fence_all:
    li    a0, 3
tell:
    .4byte 0x00100073          # ebreak
    ret

# Every trap. A call from user mode is the end of call_user; anything else goes to trap(registers).
    .align 2
trap_entry:
    csrrw sp, mscratch, sp
    addi  sp, sp, -256
    sd    t0, 40(sp)
    csrr  t0, mcause
    addi  t0, t0, -8
    bnez  t0, 1f
    addi  sp, sp, 256
    csrw  mscratch, sp
    la    t0, machine_sp
    ld    sp, 0(t0)
    ld    ra, 0(sp)
    .irp  r, 0,1,2,3,4,5,6,7,8,9,10,11
    ld    s\r, 8+8*\r(sp)
    .endr
    addi  sp, sp, 112
    ret
1:  sd    x1, 8(sp)
    .irp  r, 3,4,6,7,8,9,10,11,12,13,14,15,16,17,18,19,20,21,22,23,24,25,26,27,28,29,30,31
    sd    x\r, 8*\r(sp)
    .endr
    csrr  t0, mscratch
    sd    t0, 16(sp)
    sd    zero, 0(sp)
    mv    a0, sp
    call  trap
    ld    x1, 8(sp)
    .irp  r, 3,4,5,6,7,8,9,10,11,12,13,14,15,16,17,18,19,20,21,22,23,24,25,26,27,28,29,30,31
    ld    x\r, 8*\r(sp)
    .endr
    addi  sp, sp, 256
    csrrw sp, mscratch, sp
    mret

    .bss
    .align 4
machine_sp:
    .space 16
    .space 16384
stack_top:
    .space 8192
trap_stack_top:
