//! The tool on the samples, on drawn captures and on what is no capture.
mod blocks;
mod common;
mod csv;
mod drawn;
mod errors;
mod formats;
mod json;
mod page;
mod pcap;
mod plain;
mod samples;
mod seams;
mod settings;
mod tshark;
mod xml;
