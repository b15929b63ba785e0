//! `desk preset show`: the cells in the rows and columns of DP.

use super::{cells, preset, whole_and_half};
use crate::folder::Folder;

#[test]
fn the_table_has_a_row_for_each_value_of_the_row_bits() {
    let counted: [u16; 128] = std::array::from_fn(|at| at as u16);
    let table = "\
DP6-4       DP3-0
row    RAM    0     1     2     3     4     5     6     7     8     9     A     B     C     D     E     F
000    00H 0000  0001  0002  0003  0004  0005  0006  0007  0008  0009  000A  000B  000C  000D  000E  000F
001    10H 0010  0011  0012  0013  0014  0015  0016  0017  0018  0019  001A  001B  001C  001D  001E  001F
010    20H 0020  0021  0022  0023  0024  0025  0026  0027  0028  0029  002A  002B  002C  002D  002E  002F
011    30H 0030  0031  0032  0033  0034  0035  0036  0037  0038  0039  003A  003B  003C  003D  003E  003F
100    40H 0040  0041  0042  0043  0044  0045  0046  0047  0048  0049  004A  004B  004C  004D  004E  004F
101    50H 0050  0051  0052  0053  0054  0055  0056  0057  0058  0059  005A  005B  005C  005D  005E  005F
110    60H 0060  0061  0062  0063  0064  0065  0066  0067  0068  0069  006A  006B  006C  006D  006E  006F
111    70H 0070  0071  0072  0073  0074  0075  0076  0077  0078  0079  007A  007B  007C  007D  007E  007F
";
    let text = preset(&counted);
    Folder::new().with("x.hex", &text).desk("preset show x.hex").is_done(table);
    Folder::new().desk_with_input("preset show -", text.as_bytes()).is_done(table);
}

/// The cells stand as the `show` of a script has them.
#[test]
fn the_cells_are_those_that_a_machine_shows() {
    let folder = whole_and_half().with("s.desk", "set DP 7FH\nshow\nshow\n");
    let shown = folder.desk("run --preset p.hex s.desk").printed;
    let second = shown.split_at(shown.rfind("00H ").expect("the RAM")).1.replace(['[', ']'], " ");
    let rows: Vec<String> = folder.desk("preset show p.hex").printed.lines().skip(2).map(|line| line[7..].to_string()).collect();
    assert_eq!(rows, second.lines().map(|line| line.trim_end().to_string()).collect::<Vec<String>>());
    assert!(rows[7].ends_with(&format!("{:04X}", cells()[127])), "{rows:?}");
}

#[test]
fn a_program_finds_the_cell_by_its_row_and_column() {
    // MOV @A,MEM at the DP of row 101, column 2.
    let folder = whole_and_half().with("s.desk", "program 0: 0000F1H\nset DP 52H\nrun 1\nshow\n");
    let ran = folder.desk("run --preset p.hex s.desk");
    let row = folder.desk("preset show p.hex").printed.lines().find(|line| line.starts_with("101 ")).expect("a row").to_string();
    let cell = row.split_whitespace().nth(2 + 2).expect("a cell").to_string();
    assert!(ran.printed.contains(&format!("\nA {cell}H")), "{ran:?}");
}
