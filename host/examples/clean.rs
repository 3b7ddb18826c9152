use livukoe::{Connectivity, Plate, Side};

fn main() -> Result<(), livukoe::Refusal> {
    let plate = Plate::new(
        4,
        3,
        255,
        vec![10, 10, 10, 10, 10, 50, 30, 10, 10, 10, 10, 90],
    );
    let clean = plate.clean(Side::Light, Connectivity::Four, 2)?;
    println!("pixel 5: {}", clean.greys()[5]);
    Ok(())
}
