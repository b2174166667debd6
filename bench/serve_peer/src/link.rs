//! Signed links, and the files that they lead to.
use crate::page::Asked;
use crate::reply::Refusal;
use crate::store::{State, PIECE};
use crate::{now, Answer, PREFIX};
use hmac::{Hmac, Mac};
use hyper::header::{HeaderValue, CONTENT_LENGTH, CONTENT_TYPE};
use hyper::{Body, Response};
use percent_encoding::{percent_decode_str, utf8_percent_encode, AsciiSet, NON_ALPHANUMERIC};
use sha2::Sha256;
use std::collections::BTreeMap;
use std::fmt::Write;

pub type Key = Hmac<Sha256>;

const KEPT: &AsciiSet = &NON_ALPHANUMERIC.remove(b'-').remove(b'.').remove(b'_').remove(b'~');

pub fn tag(key: &Key, text: &[u8]) -> [u8; 32] {
    let mut mac = key.clone();
    mac.update(text);
    mac.finalize().into_bytes().into()
}

/// Puts the link of a file into `url`, in the place of what is there.
pub fn write_link(state: &State, asked: &Asked, path: &str, expires: u64, url: &mut String) {
    url.clear();
    url.push_str(&state.endpoint);
    let start = url.len();
    let (path, binding, grant) = (utf8_percent_encode(path, KEPT), asked.binding.edition, asked.grant.edition);
    let (share, schema, table, recipient) = (asked.share, asked.schema, asked.table, asked.recipient);
    let _ = write!(url, "/files/{share}/{schema}/{table}/{path}?b={binding}&e={expires}&g={grant}&r={recipient}");
    let mut digits = [0; 64];
    hex::encode_to_slice(tag(&state.link_key, url[start..].as_bytes()), &mut digits).expect("64 digits");
    url.push_str("&t=");
    url.push_str(std::str::from_utf8(&digits).expect("digits"));
}

fn invalid() -> Refusal {
    Refusal::Link("LINK_INVALID", "link invalid")
}

/// The path of the file that a link leads to, where its tag, its expiry and its editions are right.
fn path_of(state: &State, target: &str) -> Result<String, Refusal> {
    let text = target.strip_prefix(PREFIX).ok_or_else(invalid)?;
    let (signed, digits) = text.split_once("&t=").ok_or_else(invalid)?;
    let mut mac = state.link_key.clone();
    mac.update(signed.as_bytes());
    mac.verify_slice(&hex::decode(digits).map_err(|_| invalid())?).map_err(|_| invalid())?;
    let (names, parameters) = signed["/files/".len()..].split_once('?').ok_or_else(invalid)?;
    let parameters: BTreeMap<&str, &str> = parameters.split('&').filter_map(|p| p.split_once('=')).collect();
    let number = |name: &str| parameters.get(name).and_then(|v| v.parse::<u64>().ok()).ok_or_else(invalid);
    let (binding_edition, expires, grant_edition) = (number("b")?, number("e")?, number("g")?);
    let names: Vec<&str> = names.split('/').collect();
    let [share, schema, table, path] = names[..] else { return Err(invalid()) };
    let path = percent_decode_str(path).decode_utf8().map_err(|_| invalid())?;
    if expires <= now() {
        return Err(Refusal::Link("LINK_EXPIRED", "link expired"));
    }
    let recipient = parameters.get("r").and_then(|r| state.recipients.get(*r));
    let grant = recipient.and_then(|r| r.grants.get(share)).filter(|g| g.edition == grant_edition);
    let binding = grant.and_then(|_| state.tables(share).get(&(schema.into(), table.into()))).filter(|b| b.edition == binding_edition);
    let binding = binding.ok_or(Refusal::Link("LINK_REVOKED", "link revoked"))?;
    let decoded = percent_decode_str(&path).decode_utf8().map_err(|_| Refusal::FileGone)?;
    if decoded.split('/').any(|s| matches!(s, "" | "." | "..")) {
        return Err(Refusal::FileGone);
    }
    Ok(format!("{}/{decoded}", binding.location))
}

/// The file of a link, whole.
pub async fn file(state: &State, target: &str) -> Answer {
    let file = tokio::fs::File::open(path_of(state, target)?).await.map_err(|_| Refusal::FileGone)?;
    let size = file.metadata().await.map_err(|_| Refusal::FileGone)?.len();
    let mut response = Response::new(Body::wrap_stream(tokio_util::io::ReaderStream::with_capacity(file, PIECE)));
    response.headers_mut().insert(CONTENT_TYPE, HeaderValue::from_static("application/octet-stream"));
    response.headers_mut().insert(CONTENT_LENGTH, size.into());
    Ok(response)
}
