.intel_syntax noprefix
  mov edi, 0x50F00
  xor esi, esi
  mov eax, 56
  syscall
  test eax, eax
  jz produce
  mov ebp, 5
  mov ebx, 0
take:
  mov eax, dword ptr [0x404000]
  test eax, eax
  jnz taken
  mov eax, 24
  syscall
  jmp take
taken:
  add ebx, eax
  mov dword ptr [0x404000], 0
  dec ebp
  jnz take
  mov edi, ebx
  mov eax, 231
  syscall
produce:
  mov ebp, 10
put:
  mov eax, dword ptr [0x404000]
  test eax, eax
  jz free
  mov eax, 24
  syscall
  jmp put
free:
  mov dword ptr [0x404000], ebp
  inc ebp
  jmp put
