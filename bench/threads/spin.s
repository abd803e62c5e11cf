.intel_syntax noprefix
# data 0x404008 4 4
  mov ebx, 3
make:
  mov edi, 0x50F00
  xor esi, esi
  mov eax, 56
  syscall
  test eax, eax
  jz work
  dec ebx
  jnz make
work:
  mov ebp, 25
again:
  mov eax, 1
  xchg dword ptr [0x404010], eax
  test eax, eax
  jnz again
  mov ecx, dword ptr [0x404000]
  add ecx, 3
  mov dword ptr [0x404000], ecx
  mov dword ptr [0x404010], 0
  dec ebp
  jnz again
  lock dec dword ptr [0x404008]
  jnz leave
  mov edi, 1
  mov esi, 0x404000
  mov edx, 8
  mov eax, 1
  syscall
leave:
  mov edi, 9
  mov eax, 60
  syscall
