//! Stands in for src/variables/request.rs: the fields and functions that the
//! published files name. The oracle's requests are empty, so no function does
//! anything but keep what it is given, and no body is read.

use super::collection::HashMapCollection;
use crate::error::Error;

#[derive(Default)]
pub struct RequestData {
    pub uri: String,
    pub uri_raw: String,
    pub path: String,
    pub query_string: String,
    pub method: String,
    pub protocol: String,
    pub client_ip: String,
    pub client_port: u16,
    pub server_addr: String,
    pub server_port: u16,
    pub server_name: String,
    pub headers: HashMapCollection,
    pub cookies: HashMapCollection,
    pub args_get: HashMapCollection,
    pub args_post: HashMapCollection,
    pub files: HashMapCollection,
    pub multipart_part_headers: HashMapCollection,
    pub body_processor: String,
    pub body_error: Option<String>,
    body: Vec<u8>,
}

impl RequestData {
    pub fn new() -> Self {
        Self::default()
    }

    pub fn set_uri(&mut self, uri: &str) {
        self.uri = uri.to_string();
    }

    pub fn set_method(&mut self, method: &str) {
        self.method = method.to_string();
    }

    pub fn set_protocol(&mut self, protocol: &str) {
        self.protocol = protocol.to_string();
    }

    pub fn add_header(&mut self, name: &str, value: &str) {
        self.headers.add(name.to_lowercase(), value.to_string());
    }

    pub fn append_body(&mut self, data: &[u8]) {
        self.body.extend_from_slice(data);
    }

    pub fn body_str(&self) -> String {
        String::from_utf8_lossy(&self.body).into_owned()
    }

    pub fn body_length(&self) -> usize {
        self.body.len()
    }

    pub fn parse_form_body(&mut self) {}

    pub fn parse_multipart_body(&mut self, _content_type: &str) -> bool {
        false
    }

    pub fn parse_json_body(&mut self) -> Result<(), Error> {
        Err(Error::NoParser)
    }

    pub fn parse_xml_body(&mut self) -> Result<(), Error> {
        Err(Error::NoParser)
    }
}
