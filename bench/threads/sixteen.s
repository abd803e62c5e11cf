.intel_syntax noprefix
# data 0x404008 4 16
  mov ebx, 15
make:
  mov edi, 0x50F00
  xor esi, esi
  mov eax, 56
  syscall
  test eax, eax
  jz work
  dec ebx
  jnz make
work:
  mov ebp, 20
again:
  lock inc dword ptr [0x404000]
  dec ebp
  jnz again
  lock dec dword ptr [0x404008]
  jnz leave
  mov edi, 1
  mov esi, 0x404000
  mov edx, 8
  mov eax, 1
  syscall
  xor edi, edi
  mov eax, 231
  syscall
leave:
  mov edi, 7
  mov eax, 60
  syscall
