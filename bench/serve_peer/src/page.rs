//! The pages of a table's files, each with signed links, and the tokens that lead from one to the next.
use crate::link::{tag, write_link};
use crate::reply::{lines, Refusal};
use crate::store::{Binding, File, Grant, State};
use crate::{now, Answer};
use hmac::Mac;
use serde::{Deserialize, Serialize};
use std::collections::BTreeMap;

#[derive(Serialize)]
#[serde(rename_all = "camelCase")]
struct FileFields<'a> {
    expiration_timestamp: u64,
    id: &'a str,
    partition_values: &'a BTreeMap<String, Option<String>>,
    size: u64,
    #[serde(skip_serializing_if = "Option::is_none")]
    stats: Option<&'a str>,
    url: &'a str,
}

#[derive(Serialize)]
struct FileLine<'a> {
    file: FileFields<'a>,
}

#[derive(Serialize)]
#[serde(rename_all = "camelCase")]
struct EndFields {
    #[serde(skip_serializing_if = "Option::is_none")]
    min_url_expiration_timestamp: Option<u64>,
    #[serde(skip_serializing_if = "Option::is_none")]
    next_page_token: Option<String>,
}

#[derive(Serialize)]
#[serde(rename_all = "camelCase")]
struct EndLine {
    end_stream_action: EndFields,
}

#[derive(Deserialize, Default)]
#[serde(rename_all = "camelCase", default)]
struct Query {
    version: Option<u64>,
    max_files: Option<u64>,
    page_token: Option<String>,
}

/// The table that a request or a page token names, as one recipient sees it.
pub struct Asked<'a> {
    pub recipient: &'a str,
    pub share: &'a str,
    pub schema: &'a str,
    pub table: &'a str,
    pub grant: &'a Grant,
    pub binding: &'a Binding,
}

impl Asked<'_> {
    /// The text of a token, as netstrings.
    fn payload(&self, asked: &str, version: u64, place: usize) -> String {
        let (grant, binding) = (self.grant.edition.to_string(), self.binding.edition.to_string());
        let (version, place) = (version.to_string(), place.to_string());
        let fields = ["q", self.recipient, self.share, self.schema, self.table, &grant, &binding, asked, &version, "-", &place];
        fields.iter().map(|f| format!("{}:{},", f.len(), f)).collect()
    }
}

fn spell(state: &State, payload: &str) -> String {
    let text = base64::encode_config(payload, base64::URL_SAFE_NO_PAD);
    format!("{text}.{}", hex::encode(tag(&state.token_key, payload.as_bytes())))
}

/// What was asked and the place of a token that is for this table and its version.
fn cursor_of(state: &State, asked: &Asked, version: u64, token: &str) -> Result<(String, usize), Refusal> {
    let invalid = || Refusal::Token("TOKEN_INVALID", "token invalid");
    let (text, digits) = token.split_once('.').ok_or_else(invalid)?;
    let payload = base64::decode_config(text, base64::URL_SAFE_NO_PAD).map_err(|_| invalid())?;
    let mut mac = state.token_key.clone();
    mac.update(&payload);
    mac.verify_slice(&hex::decode(digits).map_err(|_| invalid())?).map_err(|_| invalid())?;
    let mut rest = std::str::from_utf8(&payload).map_err(|_| invalid())?;
    let mut fields = Vec::new();
    while let Some((length, after)) = rest.split_once(':') {
        let length = length.parse::<usize>().map_err(|_| invalid())?;
        fields.push(after.get(..length).ok_or_else(invalid)?);
        rest = after.get(length + 1..).ok_or_else(invalid)?;
    }
    let place = fields.last().and_then(|f| f.parse().ok()).ok_or_else(invalid)?;
    let ours = fields.len() == 11 && payload == asked.payload(fields[7], version, place).as_bytes();
    if !ours {
        return Err(Refusal::Token("TOKEN_STALE", "token stale"));
    }
    Ok((fields[7].to_string(), place))
}

fn push<T: Serialize>(out: &mut Vec<u8>, line: &T) {
    serde_json::to_writer(&mut *out, line).expect("in memory");
    out.push(b'\n');
}

fn push_files(state: &State, asked: &Asked, files: &[File], expires: u64, out: &mut Vec<u8>) {
    let mut url = String::with_capacity(512);
    for file in files {
        write_link(state, asked, &file.path, expires, &mut url);
        let fields = FileFields { expiration_timestamp: expires, id: &file.path, partition_values: &file.partition_values,
            size: file.size, stats: file.stats.as_deref(), url: &url };
        push(out, &FileLine { file: fields });
    }
}

pub fn query(state: &State, asked: &Asked, body: &[u8]) -> Answer {
    let query: Query = if body.is_empty() { Query::default() } else { serde_json::from_slice(body).map_err(|_| Refusal::BadBody)? };
    let log = &asked.binding.log;
    if query.version.map_or(false, |v| v != log.version) {
        return Err(Refusal::VersionRange);
    }
    let (words, from) = match query.page_token.as_deref().filter(|t| !t.is_empty()) {
        Some(token) => cursor_of(state, asked, log.version, token)?,
        None => (query.version.map_or("l".to_string(), |v| format!("v{v}")), 0),
    };
    let (end, most) = (log.files.len(), query.max_files.map_or(usize::MAX, |m| m as usize));
    let page = &log.files[from.min(end)..from.saturating_add(most).min(end)];
    let expires = now() + 1000 * state.ttl;
    let mut out = Vec::with_capacity(log.head.len() + 640 * page.len() + 512);
    out.extend_from_slice(&log.head);
    push_files(state, asked, page, expires, &mut out);
    if query.max_files.is_some() || query.page_token.is_some() {
        let place = from + page.len();
        let next = (place < end).then(|| spell(state, &asked.payload(&words, log.version, place)));
        let fields = EndFields { min_url_expiration_timestamp: (!page.is_empty()).then_some(expires), next_page_token: next };
        push(&mut out, &EndLine { end_stream_action: fields });
    }
    Ok(lines(log.version, out))
}
