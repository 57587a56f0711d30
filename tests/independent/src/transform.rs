//! Flips and quarter turns (01, "Pixels"; 000: flips come before the turn). Everything is made of one quarter turn
//! clockwise, done as often as asked, and of mirroring.

#[derive(Clone, Copy)]
pub struct Setting {
    pub turns: u8,
    pub horizontal: bool,
    pub vertical: bool,
}

#[derive(Clone, Copy, Debug, PartialEq)]
pub struct Size {
    pub width: u64,
    pub height: u64,
}

#[derive(Clone, Copy, Debug, PartialEq)]
pub struct Point {
    pub x: u64,
    pub y: u64,
}

/// All sixteen settings.
pub fn settings() -> impl Iterator<Item = Setting> {
    (0..16u8).map(|n| Setting { turns: n % 4, horizontal: n & 4 != 0, vertical: n & 8 != 0 })
}

/// A picture's size and one pixel's place in it, after a quarter turn clockwise: the left column becomes the top row.
fn quarter(size: Size, p: Point) -> (Size, Point) {
    (Size { width: size.height, height: size.width }, Point { x: size.height - 1 - p.y, y: p.x })
}

/// The size after some quarter turns.
pub fn turned_size(turns: u8, size: Size) -> Size {
    (0..turns).fold(size, |s, _| Size { width: s.height, height: s.width })
}

fn flipped(setting: Setting, size: Size, p: Point) -> Point {
    Point {
        x: if setting.horizontal { size.width - 1 - p.x } else { p.x },
        y: if setting.vertical { size.height - 1 - p.y } else { p.y },
    }
}

/// The source pixel that becomes an output pixel, if the output has such a pixel: the turn is undone by turning on until the
/// circle is whole, and a flip undoes itself.
pub fn source_of(setting: Setting, size: Size, at: Point) -> Option<Point> {
    let output = turned_size(setting.turns, size);
    if at.x >= output.width || at.y >= output.height {
        return None;
    }
    let (_, p) = (setting.turns..4).fold((output, at), |(s, p), _| quarter(s, p));
    Some(flipped(setting, size, p))
}

/// A picture after flips and turn: each source pixel is put where it goes.
pub fn moved(setting: Setting, size: Size, picture: &[u8]) -> Vec<u8> {
    let output = turned_size(setting.turns, size);
    let mut after = vec![0; picture.len()];
    for (i, pixel) in picture.iter().enumerate() {
        let p = Point { x: i as u64 % size.width, y: i as u64 / size.width };
        let start = (size, flipped(setting, size, p));
        let (_, p) = (0..setting.turns).fold(start, |(s, p), _| quarter(s, p));
        after[(p.y * output.width + p.x) as usize] = *pixel;
    }
    after
}

#[cfg(test)]
mod tests {
    use super::*;

    /// F1 and F2 of 01: a row p q turned once is the column p, q; with an H flip q, p.
    #[test]
    fn row() {
        let size = Size { width: 2, height: 1 };
        let turn = Setting { turns: 1, horizontal: false, vertical: false };
        assert_eq!(turned_size(1, size), Size { width: 1, height: 2 });
        assert_eq!(moved(turn, size, b"pq"), b"pq");
        assert_eq!(moved(Setting { horizontal: true, ..turn }, size, b"pq"), b"qp");
    }

    /// f(x, y), f(y, h-1-x), f(w-1-x, h-1-y), f(w-1-y, x) of 01, for all pixels of one size, and that both ways agree.
    #[test]
    fn as_the_paper_words_it() {
        let size = Size { width: 3, height: 5 };
        let picture: Vec<u8> = (0..15).collect();
        for setting in settings() {
            let output = turned_size(setting.turns, size);
            let after = moved(setting, size, &picture);
            for y in 0..output.height {
                for x in 0..output.width {
                    let (w, h) = (size.width, size.height);
                    let f = match setting.turns {
                        0 => Point { x, y },
                        1 => Point { x: y, y: h - 1 - x },
                        2 => Point { x: w - 1 - x, y: h - 1 - y },
                        _ => Point { x: w - 1 - y, y: x },
                    };
                    let p = source_of(setting, size, Point { x, y }).unwrap();
                    assert_eq!(p, flipped(setting, size, f));
                    assert_eq!(after[(y * output.width + x) as usize], picture[(p.y * w + p.x) as usize]);
                }
            }
        }
    }
}
