.intel_syntax noprefix
  mov ebx, 3
make:
  mov edi, 0x50F00
  xor esi, esi
  mov eax, 56
  syscall
  test eax, eax
  jz work
  dec ebx
  jnz make
work:
  mov ebp, 3
again:
  mov eax, 186
  syscall
  add eax, 64
  push rax
  mov edi, 1
  mov rsi, rsp
  mov edx, 1
  mov eax, 1
  syscall
  add rsp, 8
  dec ebp
  jnz again
  mov eax, 186
  syscall
  mov edi, eax
  mov eax, 60
  syscall
