//! The rules' steps as loops written by hand, for a square grid.

fn neighbours(grid: &[i32], side: usize, row: usize, column: usize) -> i32 {
    let up = if row == 0 { side - 1 } else { row - 1 } * side;
    let down = if row + 1 == side { 0 } else { row + 1 } * side;
    let own = row * side;
    let left = if column == 0 { side - 1 } else { column - 1 };
    let right = if column + 1 == side { 0 } else { column + 1 };
    grid[up + left]
        + grid[up + column]
        + grid[up + right]
        + grid[own + left]
        + grid[own + right]
        + grid[down + left]
        + grid[down + column]
        + grid[down + right]
}

pub fn life(grid: &[i32], next: &mut [i32], side: usize) {
    for row in 0..side {
        for column in 0..side {
            let own = grid[row * side + column];
            next[row * side + column] = match neighbours(grid, side, row, column) {
                3 => 1,
                2 => own,
                _ => 0,
            };
        }
    }
}

/// Fields grey, shift, moved.
pub fn shift(grid: &[i32], next: &mut [i32], side: usize) {
    for row in 0..side {
        for column in 0..side {
            let at = (row * side + column) * 3;
            let (grey, shift, moved) = (grid[at], grid[at + 1], grid[at + 2]);
            let left = if column == 0 { side - 1 } else { column - 1 };
            let right = if column + 1 == side { 0 } else { column + 1 };
            let line = row * side;
            let (mut to, mut done) = (grey, 0);
            if moved == 0 {
                if shift < 0 {
                    to = grid[(line + left) * 3];
                } else if shift > 0 {
                    to = grid[(line + right) * 3];
                }
                done = 1;
            }
            next[at] = to;
            next[at + 1] = shift;
            next[at + 2] = done;
        }
    }
}

/// One branch for each state: it adds a number of its own to the neighbour's state.
pub fn branches(grid: &[i32], next: &mut [i32], side: usize) {
    for row in 0..side {
        for column in 0..side {
            let own = grid[row * side + column];
            let right = if column + 1 == side { 0 } else { column + 1 };
            let near = grid[row * side + right];
            next[row * side + column] = if own < 40 {
                (near + (own * 7 + 3) % 41) % 41
            } else {
                near
            };
        }
    }
}
