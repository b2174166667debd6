//! Responses, and why a request is refused.
use hyper::header::{HeaderValue, ALLOW, CONTENT_TYPE, WWW_AUTHENTICATE};
use hyper::{Body, Response, StatusCode};
use serde_json::Value;

pub enum Refusal {
    Unauthenticated,
    NotFound,
    MethodNotAllowed(&'static str),
    BadBody,
    VersionRange,
    Token(&'static str, &'static str),
    Link(&'static str, &'static str),
    FileGone,
}

impl Refusal {
    pub fn response(self) -> Response<Body> {
        let (status, code, message) = match self {
            Refusal::Unauthenticated => (401, "UNAUTHENTICATED", "unauthenticated"),
            Refusal::NotFound => (404, "NOT_FOUND", "not found"),
            Refusal::MethodNotAllowed(_) => (405, "METHOD_NOT_ALLOWED", "method not allowed"),
            Refusal::BadBody => (400, "BAD_BODY", "bad body"),
            Refusal::VersionRange => (400, "VERSION_RANGE", "version out of range"),
            Refusal::Token(code, message) => (400, code, message),
            Refusal::Link(code, message) => (403, code, message),
            Refusal::FileGone => (404, "FILE_GONE", "file gone"),
        };
        let mut response = json(&serde_json::json!({"errorCode": code, "message": message}));
        *response.status_mut() = StatusCode::from_u16(status).expect("status");
        match self {
            Refusal::Unauthenticated => drop(response.headers_mut().insert(WWW_AUTHENTICATE, HeaderValue::from_static("Bearer"))),
            Refusal::MethodNotAllowed(method) => drop(response.headers_mut().insert(ALLOW, HeaderValue::from_static(method))),
            _ => {}
        }
        response
    }
}

pub fn json(value: &Value) -> Response<Body> {
    let mut response = Response::new(Body::from(value.to_string()));
    response.headers_mut().insert(CONTENT_TYPE, HeaderValue::from_static("application/json; charset=utf-8"));
    response
}

pub fn version_only(version: u64) -> Response<Body> {
    let mut response = Response::new(Body::empty());
    response.headers_mut().insert("delta-table-version", version.into());
    response
}

pub fn lines(version: u64, body: Vec<u8>) -> Response<Body> {
    let mut response = version_only(version);
    *response.body_mut() = Body::from(body);
    response.headers_mut().insert(CONTENT_TYPE, HeaderValue::from_static("application/x-ndjson; charset=utf-8"));
    response
}
