//! Corrects an image that is never held as a whole. The rows of a file are read
//! band by band, with their border rows, and the next rows are written to another
//! file. Whatever number of rows is held, the bytes are those of the run on the
//! whole grid.

use cellang::{run, Band, Border, Held, Mode, Rooms};
use std::error::Error;
use std::fs::{self, File};
use std::io::{self, BufWriter, Read, Seek, SeekFrom, Write};
use std::path::Path;
use std::{env, process};

/// A pixel that stands out from others near it takes their mean. The rule reads
/// two rows up and one row down.
const RULE: &[u8] = b"
2 dimensions of 0..255
mean := ([-2, 0] + [-1, -1] + [-1, 1] + [1, 0]) / 4
cell := mean when cell > mean + 40 := mean when mean > cell + 40 := cell otherwise
";

const WIDTH: usize = 96;
const HEIGHT: usize = 70;
const SHAPE: [u32; 2] = [HEIGHT as u32, WIDTH as u32];
const STEPS: i64 = 3;

/// What is in a PGM file before the pixels, of one byte each.
fn head() -> String {
    format!("P5\n{WIDTH} {HEIGHT}\n255\n")
}

/// An image with bright and dark specks.
fn image() -> Vec<u8> {
    let mut bytes = head().into_bytes();
    let mut noise: u32 = 1;
    for row in 0..HEIGHT {
        for column in 0..WIDTH {
            noise = noise.wrapping_mul(1_664_525).wrapping_add(1_013_904_223);
            bytes.push(match noise >> 27 {
                0 => 255,
                1 => 0,
                _ => (row / 2 + column) as u8 + 60,
            });
        }
    }
    bytes
}

fn to_bytes(pixels: &[i32]) -> Vec<u8> {
    // The rule keeps them between 0 and 255.
    pixels.iter().map(|&pixel| pixel as u8).collect()
}

/// The image after the run on the whole grid.
fn whole(image: &[u8]) -> Result<Vec<u8>, Box<dyn Error>> {
    let (head, pixels) = image.split_at(head().len());
    let mut grid: Vec<i32> = pixels.iter().map(|&pixel| pixel.into()).collect();
    let rooms = &mut Rooms::new();
    run(RULE, &SHAPE, &mut grid, rooms, 0, STEPS, Mode::Full)?;
    Ok([head, &to_bytes(&grid)].concat())
}

/// Reads one row of an image, and puts its pixels after others.
fn read_row(image: &mut File, row: u32, pixels: &mut Vec<i32>) -> io::Result<()> {
    let mut line = [0; WIDTH];
    let at = head().len() + row as usize * WIDTH;
    image.seek(SeekFrom::Start(at as u64))?;
    image.read_exact(&mut line)?;
    pixels.extend(line.map(i32::from));
    Ok(())
}

/// A rule for a file, of which a few rows are held.
struct Stream {
    held: Held<'static, 'static>,
    border: Border,
    plan: Vec<Band>,
    rooms: Rooms,
}

impl Stream {
    fn new(rows: u32) -> Result<Stream, Box<dyn Error>> {
        let mut rooms = Rooms::new();
        let held = Held::new(RULE, &SHAPE, rows);
        Ok(Stream {
            held,
            border: held.border(&mut rooms)?,
            plan: held.plan(&mut rooms)?,
            rooms,
        })
    }

    /// Makes one step from a file to another. The old one stays as it is, since the
    /// border rows of a band are old rows too.
    fn step(&mut self, old: &Path, new: &Path, time: i64) -> Result<(), Box<dyn Error>> {
        let mut old = File::open(old)?;
        let mut new = BufWriter::new(File::create(new)?);
        new.write_all(head().as_bytes())?;
        let (mut rows, mut next) = (Vec::new(), Vec::new());
        for &band in &self.plan {
            rows.clear();
            for row in self.border.rows_lent(band, SHAPE[0]) {
                read_row(&mut old, row, &mut rows)?;
            }
            next.resize(band.rows().count() * WIDTH, 0);
            self.held
                .step(band, &rows, &mut next, time, &mut self.rooms)?;
            new.write_all(&to_bytes(&next))?;
        }
        new.flush()?;
        Ok(())
    }
}

/// Streams an image, by way of files in a folder.
fn streamed(image: &[u8], rows: u32, folder: &Path) -> Result<Vec<u8>, Box<dyn Error>> {
    let mut stream = Stream::new(rows)?;
    let file = |time: i64| folder.join(format!("{time}.pgm"));
    fs::write(file(0), image)?;
    for time in 0..STEPS {
        stream.step(&file(time), &file(time + 1), time)?;
        fs::remove_file(file(time))?;
    }
    println!("rows held: {rows}, bands: {}", stream.plan.len());
    Ok(fs::read(file(STEPS))?)
}

fn main() -> Result<(), Box<dyn Error>> {
    let folder = env::temp_dir().join(format!("cellang_stream_{}", process::id()));
    fs::create_dir(&folder)?;
    let image = image();
    let expected = whole(&image)?;
    let changed = image.iter().zip(&expected).filter(|(old, new)| old != new);
    println!("{STEPS} steps, {} pixels changed", changed.count());
    for rows in [4, 5, 16, 72, 73, 1_000] {
        assert!(streamed(&image, rows, &folder)? == expected);
    }
    println!("the bytes are those of the whole run");
    fs::remove_dir_all(&folder)?;
    Ok(())
}
