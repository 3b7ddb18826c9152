//! A plot of the time of cleaning on the light side (area opening) against the number of pixels, both by powers of ten,
//! as SVG.

use livukoe::Connectivity;

use crate::measure::Timing;
use crate::operations::CLEAN_LIGHT;
use crate::peers::{PeerTiming, ITK_OPENING, SCIKIT_OPENING};
use crate::report::size_name;

const WIDTH: f64 = 760.0;
const HEIGHT: f64 = 440.0;
const MARGIN: f64 = 60.0;
/// The axes, as powers of ten.
const PIXELS: (f64, f64) = (4.75, 7.3);
const SECONDS: (f64, f64) = (-3.3, 2.7);

/// A point: pixels and seconds.
type Point = (usize, f64);

pub fn svg(timings: &[Timing], peers: &[PeerTiming]) -> String {
    let mut text = format!(
        "<svg xmlns=\"http://www.w3.org/2000/svg\" viewBox=\"0 0 {WIDTH} {HEIGHT}\" font-family=\"sans-serif\" \
         font-size=\"12\">\n<rect width=\"{WIDTH}\" height=\"{HEIGHT}\" fill=\"white\"/>\n"
    );
    text += &axes();
    let proved = timings.iter().filter(|timing| {
        timing.operation == CLEAN_LIGHT && timing.connectivity == Connectivity::Four
    });
    let proved = proved.map(|timing| (timing.kind, (timing.pixels, timing.seconds[0])));
    text += &lines(proved.collect(), "#1f5fa8", "Livukoe", 0);
    for (number, (peer, colour)) in [(ITK_OPENING, "#d07a1c"), (SCIKIT_OPENING, "#3c8f4a")]
        .into_iter()
        .enumerate()
    {
        let of_peer = peers.iter().filter(|timing| timing.peer == peer);
        let points = of_peer.filter_map(|timing| {
            let seconds = timing.seconds?;
            Some((timing.kind, (timing.pixels, seconds)))
        });
        text += &lines(points.collect(), colour, peer, number + 1);
    }
    text + "</svg>\n"
}

/// A line for each picture, and the name of who did the work.
fn lines(points: Vec<(&str, Point)>, colour: &str, name: &str, place: usize) -> String {
    let mut text = String::new();
    for kind in livukoe::pictures::KINDS {
        let of_kind = points.iter().filter(|(other, _)| *other == kind);
        let places: Vec<String> = of_kind.map(|(_, point)| place_of(*point)).collect();
        if places.is_empty() {
            continue;
        }
        let path = places.join(" ");
        text += &format!(
            "<polyline points=\"{path}\" fill=\"none\" stroke=\"{colour}\" stroke-width=\"1.5\"/>\n"
        );
    }
    let y = MARGIN - 32.0 + 18.0 * place as f64;
    text + &format!(
        "<text x=\"{}\" y=\"{y}\" fill=\"{colour}\">{name}, six pictures</text>\n",
        MARGIN + 12.0
    )
}

fn place_of((pixels, seconds): Point) -> String {
    let x = x_of((pixels as f64).log10());
    let y = y_of(seconds.log10());
    format!("{x:.1},{y:.1}")
}

fn x_of(power: f64) -> f64 {
    let share = (power - PIXELS.0) / (PIXELS.1 - PIXELS.0);
    MARGIN + share * (WIDTH - 2.0 * MARGIN)
}

fn y_of(power: f64) -> f64 {
    let share = (power - SECONDS.0) / (SECONDS.1 - SECONDS.0);
    HEIGHT - MARGIN - share * (HEIGHT - 2.0 * MARGIN)
}

/// The axes with their names, a line across for each power of ten of seconds.
fn axes() -> String {
    let (left, right, foot) = (MARGIN, WIDTH - MARGIN, HEIGHT - MARGIN);
    let mut text = String::new();
    for (power, name) in [
        (-3.0, "1 ms"),
        (-2.0, "10 ms"),
        (-1.0, "0.1 s"),
        (0.0, "1 s"),
        (1.0, "10 s"),
        (2.0, "100 s"),
    ] {
        let y = y_of(power);
        text += &format!(
            "<line x1=\"{left}\" y1=\"{y:.1}\" x2=\"{right}\" y2=\"{y:.1}\" stroke=\"#dddddd\"/>\n\
             <text x=\"{}\" y=\"{:.1}\" text-anchor=\"end\">{name}</text>\n",
            left - 6.0,
            y + 4.0
        );
    }
    for shift in [16, 18, 20, 22, 24] {
        let pixels = 1usize << shift;
        text += &format!(
            "<text x=\"{:.1}\" y=\"{}\" text-anchor=\"middle\">{}</text>\n",
            x_of((pixels as f64).log10()),
            foot + 18.0,
            size_name(pixels)
        );
    }
    text + &format!(
        "<text x=\"{}\" y=\"{}\" text-anchor=\"middle\">pixels; processor time of cleaning on the light side (area \
         opening), connectivity 4</text>\n",
        WIDTH / 2.0,
        foot + 40.0
    )
}
