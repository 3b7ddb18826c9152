//! A plate's record, the cut of that record and its size list, made by one call.

use crate::lent::{self, Image, JointOutputs, SizeHead};
use crate::plate::Plate;
use crate::record::Record;
use crate::refusal::Refusal;
use crate::sizes::SizeList;

/// What [`Plate::record_cut_sizes`] gives: the cut and the sizes are those of the very bytes of the record.
#[derive(Clone, Debug, PartialEq, Eq)]
pub struct Joint {
    pub record: Record,
    pub cut: Plate,
    pub sizes: SizeList,
}

impl Joint {
    pub(crate) fn of(
        image: Image,
        limit: u32,
        pixels: usize,
        work: &mut [u32],
    ) -> Result<Joint, Refusal> {
        let mut bytes = vec![0; Record::most_bytes(pixels)];
        let mut out = vec![0; pixels];
        let (mut counts, mut losses) = SizeList::tables(pixels);
        let outputs = JointOutputs {
            bytes: &mut bytes,
            out: &mut out,
            counts: &mut counts,
            losses: &mut losses,
        };
        let answer = lent::write_cut_list(image, limit, outputs, work);
        Refusal::check(answer.refusal)?;
        let head = SizeHead {
            refusal: 0,
            width: image.width,
            height: image.height,
            greatest: image.greatest,
            connectivity: image.connectivity,
            nodes: answer.nodes,
            darkest: answer.darkest,
            held: answer.held,
        };
        Ok(Joint {
            record: Record::written(bytes, answer.length),
            cut: Plate::new(image.width, image.height, image.greatest, out),
            sizes: SizeList::new(head, counts, losses),
        })
    }
}
