// changed: `push_str` is never refused; a failing `Display` panics, as in `to_string`
// proved: bc3abc4b
fn append<T: Display>(
    text: &mut String,
    begun: bool,
    separator: &str,
    item: T,
) -> Result<(), AllocError>
{
    if begun {
        text.push_str(separator);
    }
    let written = write!(text, "{item}");
    written.expect("a Display implementation returned an error");
    Ok(())
}
