.intel_syntax noprefix
  mov edi, 0x50F00
  mov esi, 0x500000
  mov eax, 56
  syscall
  test eax, eax
  jz work
wait:
  mov eax, 24
  syscall
  jmp wait
work:
  push rax
