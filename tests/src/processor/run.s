# Runs one instruction with the processor in a given state, and reads the state back.
# The frame's offsets are those of `Frame` in host.rs.

.set MASKS, 2048
.set GENERAL, 2112
.set CONTROL, 2240
.set HOST_CONTROL, 2244
.set HOST_STACK, 2248

.bss
.balign 8
witness_frame: .zero 8
witness_entry: .zero 8
witness_scratch: .zero 8

.text
# void witness_run(Frame *frame, const uint8_t *entry): jumps to `entry` with every register of the
# frame loaded. The bytes there, or a signal handler, go on at witness_back.
.globl witness_run
witness_run:
    push rbx
    push rbp
    push r12
    push r13
    push r14
    push r15
    mov [rip + witness_frame], rdi
    mov [rip + witness_entry], rsi
    mov [rdi + HOST_STACK], rsp
    stmxcsr [rdi + HOST_CONTROL]
.irp n, 0,1,2,3,4,5,6,7,8,9,10,11,12,13,14,15,16,17,18,19,20,21,22,23,24,25,26,27,28,29,30,31
    vmovdqu64 zmm\n, [rdi + 64 * \n]
.endr
.irp n, 0,1,2,3,4,5,6,7
    kmovq k\n, [rdi + MASKS + 8 * \n]
.endr
    ldmxcsr [rdi + CONTROL]
    mov rax, [rdi + GENERAL]
    mov rcx, [rdi + GENERAL + 8]
    mov rdx, [rdi + GENERAL + 16]
    mov rbx, [rdi + GENERAL + 24]
    mov rsp, [rdi + GENERAL + 32]
    mov rbp, [rdi + GENERAL + 40]
    mov rsi, [rdi + GENERAL + 48]
.irp n, 8,9,10,11,12,13,14,15
    mov r\n, [rdi + GENERAL + 8 * \n]
.endr
    mov rdi, [rdi + GENERAL + 56]
    jmp [rip + witness_entry]

# Everything is stored before anything of the host's is loaded.
.globl witness_back
witness_back:
    mov [rip + witness_scratch], rdi
    mov rdi, [rip + witness_frame]
    stmxcsr [rdi + CONTROL]
    mov [rdi + GENERAL], rax
    mov rax, [rip + witness_scratch]
    mov [rdi + GENERAL + 56], rax
    mov [rdi + GENERAL + 8], rcx
    mov [rdi + GENERAL + 16], rdx
    mov [rdi + GENERAL + 24], rbx
    mov [rdi + GENERAL + 32], rsp
    mov [rdi + GENERAL + 40], rbp
    mov [rdi + GENERAL + 48], rsi
.irp n, 8,9,10,11,12,13,14,15
    mov [rdi + GENERAL + 8 * \n], r\n
.endr
.irp n, 0,1,2,3,4,5,6,7
    kmovq [rdi + MASKS + 8 * \n], k\n
.endr
.irp n, 0,1,2,3,4,5,6,7,8,9,10,11,12,13,14,15,16,17,18,19,20,21,22,23,24,25,26,27,28,29,30,31
    vmovdqu64 [rdi + 64 * \n], zmm\n
.endr
    ldmxcsr [rdi + HOST_CONTROL]
    vzeroupper
    mov rsp, [rdi + HOST_STACK]
    pop r15
    pop r14
    pop r13
    pop r12
    pop rbp
    pop rbx
    ret
