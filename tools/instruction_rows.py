"""Prints each row of the instruction table over corner operands: the bytes that GNU as writes, objdump's reading, the
text for as, and the instruction as crates/x64_decode/src/tests.rt has it. Where as chooses another spelling, the bytes are
given by hand and objdump alone reads them. Wants as, nm, objcopy and objdump."""

import os
import re
import subprocess
import tempfile

N=['Rax','Rcx','Rdx','Rbx','Rsp','Rbp','Rsi','Rdi']+['Gpr%d'%i for i in range(8,16)]
n64=['rax','rcx','rdx','rbx','rsp','rbp','rsi','rdi']+['r%d'%i for i in range(8,16)]
n32=['eax','ecx','edx','ebx','esp','ebp','esi','edi']+['r%dd'%i for i in range(8,16)]
n8=['al','cl','dl','bl','spl','bpl','sil','dil']+['r%db'%i for i in range(8,16)]
R=lambda i:'Reg::'+N[i]
groups=[]
def g(name): groups.append((name,[]))
def row(asm,rt,raw=None): groups[-1][1].append((asm,rt,raw))
g('REGISTERS')
for d,s in [(0,8),(13,4),(15,15)]:
    row(f'mov {n64[d]}, {n64[s]}',f'Instr::Mov {{ wide: true, dst: {R(d)}, src: {R(s)} }}')
for d,s in [(1,0),(10,0),(3,12)]:
    row(f'{{rex}} mov {n32[d]}, {n32[s]}',f'Instr::Mov {{ wide: false, dst: {R(d)}, src: {R(s)} }}')
for (o,O),(d,s) in zip([('add','Add'),('or','Or'),('and','And'),('sub','Sub'),('xor','Xor'),('cmp','Cmp')],[(0,15),(8,1),(12,13),(4,5),(15,0),(3,11)]):
    row(f'{o} {n64[d]}, {n64[s]}',f'Instr::Alu {{ op: AluOp::{O}, dst: {R(d)}, src: {R(s)} }}')
row('test rcx, r9',f'Instr::Test {{ a: {R(1)}, b: {R(9)} }}')
row('imul rdx, r14',f'Instr::Imul {{ dst: {R(2)}, src: {R(14)} }}')
row('not rsp','Instr::Not { r: Reg::Rsp }')
row('not r12','Instr::Not { r: Reg::Gpr12 }')
row('neg rbx','Instr::Neg { r: Reg::Rbx }')
row('neg r8','Instr::Neg { r: Reg::Gpr8 }')
row('idiv rcx','Instr::Idiv { r: Reg::Rcx }')
row('idiv r13','Instr::Idiv { r: Reg::Gpr13 }')
row('cqo','Instr::Cqo')
row('shl rax,1','Instr::ShiftImm { op: ShiftOp::Shl, r: Reg::Rax, count: 1 }','48c1e001')
row('shr r12, 63','Instr::ShiftImm { op: ShiftOp::Shr, r: Reg::Gpr12, count: 63 }')
row('sar rdi, 32','Instr::ShiftImm { op: ShiftOp::Sar, r: Reg::Rdi, count: 32 }')
row('shl rsi, cl','Instr::ShiftCl { op: ShiftOp::Shl, r: Reg::Rsi }')
row('shr r15, cl','Instr::ShiftCl { op: ShiftOp::Shr, r: Reg::Gpr15 }')
row('sar rbp, cl','Instr::ShiftCl { op: ShiftOp::Sar, r: Reg::Rbp }')
row('movsxd r9, eax','Instr::Movsxd { dst: Reg::Gpr9, src: Reg::Rax }')
row('movzx rax, r11b','Instr::Movzx8 { dst: Reg::Rax, src: Reg::Gpr11 }')
row('movsx r10, sil','Instr::Movsx8 { dst: Reg::Gpr10, src: Reg::Rsi }')
g('CONDITIONS')
C=['O','No','B','Ae','E','Ne','Be','A','S','Ns','L','Ge','Le','G']
for k,c in enumerate(C):
    r=[0,4,7,8,12,13,15][k%7]
    row(f'{{rex}} set{c.lower()} {n8[r]}',f'Instr::Setcc {{ cc: Cond::{c}, r: {R(r)} }}')
    d,s=(k+1)%16,(5*k+8)%16
    row(f'cmov{c.lower()} {n64[d]}, {n64[s]}',f'Instr::Cmov {{ cc: Cond::{c}, dst: {R(d)}, src: {R(s)} }}')
    rel=[0x10000,-0x10000,0x12345678,-0x12345678][k%4]
    row(f'j{c.lower()} .+6{rel:+d}',f'Instr::Jcc {{ cc: Cond::{c}, rel: {rel:#x} }}')
g('NUMBERS')
row('{rex} mov eax, 1','Instr::MovImm32 { dst: Reg::Rax, imm: 1 }')
row('{rex} mov edi, 0x80000000','Instr::MovImm32 { dst: Reg::Rdi, imm: 0x80000000 }')
row('mov r15d, 0xffffffff','Instr::MovImm32 { dst: Reg::Gpr15, imm: 0xffffffff }')
row('movabs rbx, 0x1122334455667788','Instr::MovImm64 { dst: Reg::Rbx, imm: 0x1122334455667788 }')
row('movabs r8, 0xffffffffffffffff','Instr::MovImm64 { dst: Reg::Gpr8, imm: 0xffffffffffffffff }')
row('mov rsp, -1','Instr::MovImmS { dst: Reg::Rsp, imm: -1 }')
row('mov r13, 0x7fffffff','Instr::MovImmS { dst: Reg::Gpr13, imm: 0x7fffffff }')
row('mov rax, -0x80000000','Instr::MovImmS { dst: Reg::Rax, imm: i32::MIN }')
for (o,O),(d,imm) in zip([('add','Add'),('or','Or'),('and','And'),('sub','Sub'),('xor','Xor'),('cmp','Cmp')],[(1,0x12345678),(8,-0x80000000),(15,0x80),(4,0x7fffffff),(12,-129),(7,-0x1000000)]):
    row(f'{o} {n64[d]}, {imm}',f'Instr::AluImm {{ op: AluOp::{O}, dst: {R(d)}, imm: {"i32::MIN" if imm==-2**31 else hex(imm)} }}')
row('add    rax,0x8','Instr::AluImm { op: AluOp::Add, dst: Reg::Rax, imm: 8 }','4881c008000000')
row('cmp    r10,0xffffffffffffffff','Instr::AluImm { op: AluOp::Cmp, dst: Reg::Gpr10, imm: -1 }','4981faffffffff')
g('ACCESSES')
def mem(seg,b,disp): return f'{seg}:[{n32[b]}{disp:+d}]', f'Mem {{ seg: Seg::{seg.capitalize()}, base: {R(b)}, disp: {"i32::MIN" if disp==-2**31 else disp} }}'
for d,seg,b,disp in [(0,'fs',8,-3),(12,'gs',4,0),(15,'fs',12,2147483647),(6,'gs',13,-2147483648)]:
    m,t=mem(seg,b,disp); row(f'{{disp32}} mov {n64[d]}, qword ptr {m}',f'Instr::Load {{ wide: true, dst: {R(d)}, mem: {t} }}')
for d,seg,b,disp in [(0,'fs',1,16),(10,'fs',4,0),(7,'gs',15,-1)]:
    m,t=mem(seg,b,disp); row(f'{{rex}} {{disp32}} mov {n32[d]}, dword ptr {m}',f'Instr::Load {{ wide: false, dst: {R(d)}, mem: {t} }}')
for d,seg,b,disp in [(2,'gs',12,1),(9,'fs',5,-128)]:
    m,t=mem(seg,b,disp); row(f'{{disp32}} movzx {n64[d]}, byte ptr {m}',f'Instr::LoadZx8 {{ dst: {R(d)}, mem: {t} }}')
for d,seg,b,disp in [(3,'fs',0,127),(14,'gs',11,256)]:
    m,t=mem(seg,b,disp); row(f'{{disp32}} movsx {n64[d]}, byte ptr {m}',f'Instr::LoadSx8 {{ dst: {R(d)}, mem: {t} }}')
for d,seg,b,disp in [(4,'fs',9,-256),(8,'gs',6,65536)]:
    m,t=mem(seg,b,disp); row(f'{{disp32}} movsxd {n64[d]}, dword ptr {m}',f'Instr::LoadSx32 {{ dst: {R(d)}, mem: {t} }}')
for w,names,p,W in [(8,n64,'qword','B8'),(4,n32,'dword','B4'),(1,n8,'byte','B1')]:
    for s,seg,b,disp in [(0,'fs',3,5),(13,'gs',4,-8),(6,'fs',12,4096)]:
        m,t=mem(seg,b,disp); row(f'{"{rex} " if w<8 else ""}{{disp32}} mov {p} ptr {m}, {names[s]}',f'Instr::Store {{ width: Width::{W}, mem: {t}, src: {R(s)} }}')
g('CONTROL')
row('{disp32} cmp r11, qword ptr [r10d]','Instr::CmpFlat')
row('jmp r10','Instr::JmpR10')
row('call r10','Instr::CallR10')
row('call .+5','Instr::Call { rel: 0 }')
row('call .+5-123456','Instr::Call { rel: -123456 }')
row('jmp .+5+0x1000','Instr::Jmp { rel: 0x1000 }')
row('jmp','Instr::Jmp { rel: -1 }','e9ffffffff')
row('jmp','Instr::Jmp { rel: i32::MIN }','e900000080')
row('ud2','Instr::Ud2')
row('nop','Instr::Nop')
rows = [r for _, rs in groups for r in rs]
text = '.intel_syntax noprefix\n'
for k, (asm, _, raw) in enumerate(rows):
    given = raw and '.byte ' + ','.join('0x' + raw[i:i + 2] for i in range(0, len(raw), 2))
    text += f'l{k}:\n{given or asm}\n'
text += f'l{len(rows)}:\n'

with tempfile.TemporaryDirectory() as folder:
    os.chdir(folder)
    with open('t.s', 'w') as out:
        out.write(text)
    subprocess.run(['as', '-o', 't.o', 't.s'], check=True)
    names = subprocess.run(['nm', 't.o'], capture_output=True, text=True, check=True).stdout
    places = {int(m[2]): int(m[1], 16) for m in re.finditer(r'^([0-9a-f]+) t l(\d+)$', names, re.M)}
    subprocess.run(['objcopy', '-O', 'binary', '-j', '.text', 't.o', 't.bin'], check=True)
    with open('t.bin', 'rb') as file:
        code = file.read()
    read = ['objdump', '-d', '-M', 'intel', '--insn-width=16', 't.o']
    lines = subprocess.run(read, capture_output=True, text=True, check=True).stdout
    os.chdir('/')

read_at = {int(m[1], 16): (m[2].replace(' ', ''), m[3]) for m in re.finditer(r'^\s*([0-9a-f]+):\t([0-9a-f ]+?)\s*\t(.*)$', lines, re.M)}
for k, (asm, instruction, _) in enumerate(rows):
    spelled = code[places[k]:places[k + 1]].hex()
    assert read_at[places[k]][0] == spelled, (asm, spelled, read_at[places[k]])
    print(f'{spelled:30} {read_at[places[k]][1]:50} {asm:45} {instruction}')
