//! The library behind the bridge against the mesher: the whole suite, and how much stack it uses, measured where the suite puts the largest cases.

use bridged::Library;

differential::suite!(Library::start(), rest);

/// The stack of the deepest chain, twelve vertices under way at once: the most that was in use, the bridge's own included.
#[test]
fn at_most_16_kib_of_stack_in_the_deepest_chain() {
    let library = Library::start();
    let own = library.stack_used();
    differential::suite::bring_deepest(&library);
    let used = library.stack_used();
    println!("{used} bytes of stack at most, {own} before any call");
    assert!(used <= 16 * 1024);
}

/// "No library call uses more than 64 KiB of stack", at the largest sizes: the most that was ever in use, the bridge's own included.
#[test]
fn at_most_64_kib_of_stack() {
    let library = Library::start();
    let own = library.stack_used();
    differential::suite::small_stack(&library);
    let used = library.stack_used();
    println!("{used} bytes of stack at most, {own} before any call");
    assert!(used <= 64 * 1024);
}
