//! SHA-256 on the examples that are published with FIPS 180-4, and on each length around a block's end.

use graftspindle_cli::digest;

#[test]
fn published_examples() {
    let two_blocks = b"abcdbcdecdefdefgefghfghighijhijkijkljklmklmnlmnomnopnopq";
    let known: [(&[u8], &str); 4] = [
        (b"", "e3b0c44298fc1c149afbf4c8996fb92427ae41e4649b934ca495991b7852b855"),
        (b"abc", "ba7816bf8f01cfea414140de5dae2223b00361a396177a9cb410ff61f20015ad"),
        (two_blocks, "248d6a61d20638b8e5c026930c3e6039a33ce45964ff2167f6ecedd419db06c1"),
        (&[b'a'; 1_000_000], "cdc76e5c9914fb9281a1c7e284d73e67f1809a48a497200e046d39ccc7112cd0"),
    ];
    for (bytes, text) in known {
        assert_eq!(digest::of(bytes).to_string(), text);
    }
}

/// Around the end of a block the padding takes one block or two: no two of these lengths have one digest.
#[test]
fn lengths_around_a_block() {
    let mut all: Vec<String> = (0..=130).map(|length| digest::of(&vec![b'a'; length]).to_string()).collect();
    assert_eq!(all[55], "9f4390f8d30c2dd92ec9f095b65e2b9ae9b0a925a5258e241c9f1e910f734318");
    assert_eq!(all[56], "b35439a4ac6f0948b6d6f9e3c6af0f5f590ce20f1bde7090ef7970686ec6738a");
    assert_eq!(all[64], "ffe054fe7ae0cb6dc65c3af9b61d5209f439851db43d0ba5997337df154668eb");
    all.sort();
    all.dedup();
    assert_eq!(all.len(), 131);
}
