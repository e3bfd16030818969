//! Life on a torus: a glider, printed after every step.

use cellang::{run, Mode, Rooms, Stop};

const LIFE: &[u8] = b"
2 dimensions of 0..1
n := -cell
forall i : -1..1
  forall j : -1..1
    n := n + [i, j]
  end
end
cell := 1 when n = 3 := cell when n = 2 := 0 otherwise
";

const SIZE: usize = 8;
const STEPS: i64 = 12;

fn print(time: i64, grid: &[i32]) {
    println!("time {time}");
    for row in grid.chunks(SIZE) {
        let line: String = row
            .iter()
            .map(|&cell| if cell == 1 { '#' } else { '.' })
            .collect();
        println!("{line}");
    }
}

fn main() -> Result<(), Stop<'static>> {
    let mut grid = vec![0; SIZE * SIZE];
    for (row, column) in [(0, 1), (1, 2), (2, 0), (2, 1), (2, 2)] {
        grid[row * SIZE + column] = 1;
    }
    let first = grid.clone();
    let shape = [SIZE as u32; 2];
    let mut rooms = Rooms::new();
    print(0, &grid);
    for time in 0..STEPS {
        run(LIFE, &shape, &mut grid, &mut rooms, time, 1, Mode::Full)?;
        print(time + 1, &grid);
    }
    let mut again = first;
    let done = run(LIFE, &shape, &mut again, &mut rooms, 0, STEPS, Mode::Quiet)?;
    assert_eq!(again, grid);
    let full = SIZE as u64 * SIZE as u64 * STEPS as u64;
    println!(
        "{STEPS} steps at once, quiet: the same grid, {} evaluations instead of {full}",
        done.count
    );
    Ok(())
}
