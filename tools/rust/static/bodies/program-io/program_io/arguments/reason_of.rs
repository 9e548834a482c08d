// changed: the oldest rustc has no `IsADirectory`; a folder is opened, and told by `opened`
// proved: 6a54eed4
fn reason_of(error: &io::Error) -> Reason {
    match error.kind() {
        ErrorKind::NotFound => Reason::Missing,
        ErrorKind::PermissionDenied => Reason::Forbidden,
        _ => Reason::Other,
    }
}
