//! Judging an image, and the questions about it.

use crate::answers::{Block, Geometry, Refusal, Sector};
use crate::image::Image;

/// judging uses 30 to 35.
pub fn validate(image: &[u8]) -> Result<(), Refusal> {
    Image::parse(image).map(|_| ())
}

/// the question for the geometry; it uses 30 to 35.
pub fn geometry(image: &[u8]) -> Result<Geometry, Refusal> {
    Ok(Image::parse(image)?.geometry)
}

/// the question for a block; it uses 30 to 35, then 13.
pub fn block(image: &[u8], track: u32, side: u32) -> Result<Block, Refusal> {
    Ok(Image::parse(image)?.block(track, side)?.block)
}

/// the question for a sector; it uses 30 to 35, then 13, then 14.
pub fn sector(image: &[u8], track: u32, side: u32, index: u32) -> Result<Sector, Refusal> {
    Ok(Image::parse(image)?.block(track, side)?.sector(index)?.sector)
}

/// the question for a sector's data, refused as the sector is.
pub fn data(image: &[u8], track: u32, side: u32, index: u32) -> Result<Vec<u8>, Refusal> {
    Ok(Image::parse(image)?.block(track, side)?.sector(index)?.bytes.clone())
}
