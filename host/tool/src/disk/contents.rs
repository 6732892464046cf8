//! The blocks of an image with their sectors.

use dsk::{Block, Geometry, Refusal, Sector};

use super::layout::{Layout, Place, NAME};

/// A block with its sectors.
pub struct Found {
    /// Where it is.
    pub place: Place,
    /// Its fields; none where it has no name, or the file ends before them.
    pub block: Option<Block>,
    /// Its sectors.
    pub sectors: Vec<Sector>,
}

/// The geometry of an image and all its blocks, as the library answers for them and for each sector; or its refusal.
pub fn accepted(image: &[u8]) -> Result<(Geometry, Vec<Found>), Refusal> {
    let geometry = dsk::geometry(image)?;
    let found = |place: Place| {
        let (track, side) = (place.track.into(), place.side.into());
        let block = dsk::block(image, track, side)?;
        let sectors = (0..block.sectors.into()).map(|index| dsk::sector(image, track, side, index)).collect::<Result<_, _>>()?;
        Ok(Found { place, block: Some(block), sectors })
    };
    Ok((geometry, Place::all(geometry).map(found).collect::<Result<_, _>>()?))
}

/// The blocks of any file that it has at least a byte of; none where the geometry is wrong.
pub fn refused(layout: Layout) -> Vec<Found> {
    let places = layout.right_geometry().into_iter().flat_map(Place::all).take_while(|place| place.start < layout.len());
    let found = |place: Place| {
        let named = layout.array(place.start) == Some(NAME);
        let block = layout.block(&place).filter(|_| named);
        let sectors = block.map(|block| layout.sectors(&place, &block)).unwrap_or_default();
        Found { place, block, sectors }
    };
    places.map(found).collect()
}

#[cfg(test)]
mod tests {
    use super::*;
    use scp_compare::dsk_generate::image;
    use scp_compare::random::Random;

    #[test]
    fn of_an_accepted_image_all_can_be_read_without_the_library() {
        let mut sectors = 0;
        for number in 0..20_000 {
            let image = image(&mut Random::of_case(10, number));
            let due = accepted(&image);
            assert_eq!(due.as_ref().err().copied(), dsk::validate(&image).err(), "case {number}");
            let Ok((geometry, due)) = due else { continue };
            let layout = Layout(&image);
            let fields = |found: Vec<Found>| found.into_iter().map(|found| (found.block, found.sectors)).collect::<Vec<_>>();
            sectors += due.iter().map(|found| found.sectors.len()).sum::<usize>();
            assert_eq!((layout.geometry(), layout.right_geometry()), (Some(geometry), Some(geometry)), "case {number}");
            assert_eq!(fields(refused(layout)), fields(due), "case {number}");
        }
        assert!(sectors > 10_000, "{sectors}");
    }
}
