.intel_syntax noprefix
  mov ebx, 16
make:
  mov edi, 0x50F00
  mov eax, 56
  syscall
  test eax, eax
  jz leave
  mov edi, eax
  dec ebx
  jnz make
  mov eax, 231
  syscall
leave:
  mov eax, 60
  syscall
