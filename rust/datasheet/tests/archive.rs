//! Holds what docs/DATASHEET.md says of the archive itself.

use std::collections::BTreeSet;

use datasheet::archive::printed;
use datasheet::frames::read_frames;
use datasheet::sheet;

/// The archive's instructions, each with its operands.
fn instructions() -> Vec<String> {
    let listing = printed("objdump", &["-d", "--no-show-raw-insn", &sheet::archive()]);
    let lines = listing.lines().filter_map(|line| line.split_once(":\t"));
    lines.map(|(_, text)| text.to_string()).collect()
}

/// The first words of instructions.
fn mnemonics() -> BTreeSet<String> {
    let instructions = instructions();
    let words = instructions
        .iter()
        .filter_map(|text| text.split_whitespace().next());
    words.map(str::to_string).collect()
}

/// The instructions of SSE and SSE2 that move, compare and compute with whole
/// numbers and bits: none of them computes with floating point.
const SSE2: &str = "
    movaps movups movapd movupd movdqa movdqu movq movd movss movlps movhps movlpd
    movhpd movhlps movlhps movmskps movmskpd pmovmskb shufps shufpd pshufd pshuflw
    pshufhw unpcklps unpckhps unpcklpd unpckhpd punpcklbw punpcklwd punpckldq
    punpcklqdq punpckhbw punpckhwd punpckhdq punpckhqdq packsswb packssdw packuswb
    andps andnps orps xorps andpd andnpd orpd xorpd pand pandn por pxor pcmpeqb
    pcmpeqw pcmpeqd pcmpgtb pcmpgtw pcmpgtd paddb paddw paddd paddq psubb psubw
    psubd psubq pmuludq pmullw pmulhw pmaxub pminub pmaxsw pminsw pslldq psrldq
    psllw pslld psllq psrlw psrld psrlq psraw psrad pextrw pinsrw movsd";

/// Other instructions of the plain x86-64 set, without the letter of a size.
/// `tzcnt` is carried out as `bsf` by a processor that does not have it, with the
/// same result on what is not 0.
const PLAIN: &str = "
    adc add and bsf bsr bt call cltd cltq cmp cs cwtl data16 dec div imul inc jmp
    lea mov movabs movsbl movslq movzbl movzwl mul neg nop not or pop push ret rol
    ror sar sbb shl shld shr shrd sub test tzcnt xchg xor";

fn is_among(name: &str, list: &str) -> bool {
    list.split_whitespace().any(|listed| listed == name)
}

/// Is it a plain instruction: as it is, with the letter of a size, or one that
/// goes by a condition?
fn is_plain(mnemonic: &str) -> bool {
    let sizes = ["b", "w", "l", "q", ""];
    let stems = sizes.iter().filter_map(|size| mnemonic.strip_suffix(size));
    let conditions = ["set", "cmov", "j"].map(|kind| mnemonic.starts_with(kind));
    stems.into_iter().any(|stem| is_among(stem, PLAIN)) || conditions.contains(&true)
}

#[test]
fn the_instructions_are_those_of_plain_x86_64() {
    let all = mnemonics();
    assert!(all.contains("movups") && all.contains("push"), "{all:?}");
    let others = all
        .iter()
        .filter(|name| !is_among(name, SSE2) && !is_plain(name));
    assert_eq!(others.collect::<Vec<_>>(), Vec::<&String>::new());
    assert!(!is_plain("vmovaps") && !is_plain("fld") && !is_plain("popcnt"));
}

#[test]
fn aligned_moves_address_only_the_stack_and_constants() {
    let instructions = instructions();
    let aligned = |text: &&String| text.starts_with("movaps") || text.starts_with("movdqa");
    let addressed = instructions
        .iter()
        .filter(aligned)
        .filter(|text| text.contains('('));
    let addressed: Vec<&String> = addressed.collect();
    assert!(!addressed.is_empty());
    for text in addressed {
        assert!(text.contains("(%rsp") || text.contains("(%rip"), "{text}");
    }
}

#[test]
fn only_memcpy_and_memset_are_needed() {
    let listed = printed("nm", &["-u", &sheet::archive()]);
    let needed = listed
        .lines()
        .filter_map(|line| line.trim().strip_prefix("U "));
    assert_eq!(needed.collect::<Vec<_>>(), ["memcpy", "memset"]);
}

#[test]
fn no_section_can_be_written_and_none_is_of_a_thread() {
    let listed = printed("readelf", &["-SW", &sheet::archive()]);
    let sections = listed.lines().filter(|line| line.contains("PROGBITS"));
    let flags = sections.map(|line| line.split_whitespace().rev().nth(3).expect("flags"));
    let flags: BTreeSet<&str> = flags.collect();
    assert!(flags.contains("AX") && flags.contains("A"), "{flags:?}");
    assert!(
        !flags.iter().any(|flags| flags.contains(['W', 'T'])),
        "{flags:?}"
    );
    assert!(!listed.contains("NOBITS") && !listed.contains(".tdata"));
}

#[test]
fn the_code_may_stand_anywhere() {
    let listed = printed("readelf", &["-rW", &sheet::archive()]);
    let words = listed.split_whitespace();
    let kinds: BTreeSet<&str> = words.filter(|word| word.starts_with("R_X86_64")).collect();
    let relative = BTreeSet::from(["R_X86_64_PC32", "R_X86_64_PLT32"]);
    assert!(!kinds.is_empty() && kinds.is_subset(&relative), "{kinds:?}");
}

#[test]
fn the_sheet_has_the_code_of_each_function() {
    let frames = read_frames(&sheet::archive());
    let text = sheet::read();
    assert_eq!(sheet::table(&text, "code"), sheet::code_table(&frames));
}
