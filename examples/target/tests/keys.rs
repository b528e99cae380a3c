//! The keys of the negotiation.

use target::keys::Keys;

fn answers(offer: &str) -> (Keys, String) {
    let mut keys = Keys::default();
    let text = keys.negotiate(offer.replace(' ', "\0").as_bytes()).expect("a text of pairs");
    (keys, String::from_utf8(text).expect("ASCII").replace('\0', " "))
}

#[test]
fn keys_are_negotiated_by_their_functions() {
    let (keys, text) = answers(
        "HeaderDigest=CRC32C,None InitialR2T=No ImmediateData=Yes MaxBurstLength=0x100000 \
        FirstBurstLength=4096 MaxConnections=40 ErrorRecoveryLevel=2 MaxRecvDataSegmentLength=65536",
    );
    assert_eq!(
        text,
        "HeaderDigest=None InitialR2T=Yes ImmediateData=Yes MaxBurstLength=262144 FirstBurstLength=4096 \
        MaxConnections=8 ErrorRecoveryLevel=0 "
    );
    assert_eq!((keys.max_burst, keys.first_burst, keys.connections), (262_144, 4096, 8));
    assert_eq!(keys.longest_data, 65536);
}

#[test]
fn what_can_not_be_agreed_on_is_rejected() {
    let (keys, text) = answers(
        "AuthMethod=CHAP DataDigest=CRC32C MaxBurstLength=1 X-new=1 \
        MaxRecvDataSegmentLength=1",
    );
    assert_eq!(
        text,
        "AuthMethod=Reject DataDigest=Reject MaxBurstLength=Reject \
        X-new=NotUnderstood MaxRecvDataSegmentLength=Reject "
    );
    assert_eq!((keys.longest_data, keys.first_burst), (8192, 65_536));
    assert!(keys.wants_authentication && !answers("AuthMethod=CHAP,None").0.wants_authentication);
}

#[test]
fn a_text_without_pairs_is_refused() {
    assert!(Keys::default().negotiate(b"word\0").is_none());
    assert!(Keys::default().negotiate(b"\xff=\0").is_none());
}
