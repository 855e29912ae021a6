//! Rows for `waiting`: short beginnings of values of every type, among them such as zeros behind them add to what is counted; rows of which no byte is used; and
//! rows that lack as much as the limit leaves, and more.
use super::columns::{self, is_lob, plain};
use super::compare::Run;
use super::port_side::Library;
use super::waiting::FEW_BY_RULE;
use super::{List, ROW_LIMIT};
use crate::descriptions::COLUMN_LIMIT;
use crate::run::Flow;
use port::column::{Column, Name, Order, Type};
use std::ops::ControlFlow::Continue;

/// Values that break off; each is cut at every byte.
const BEGINNINGS: [&[u8]; 10] = [
    &[0; 9],
    // A reference, whole with its ninth byte.
    &[0x02, 0, 0, 0, 0, 0, 0, 1],
    // Lengths of four bytes,
    &[0, 0, 0, 2, b'A'],
    &[0, 3, 0, 0, b'A'],
    // of two: of the first the high byte alone is much,
    &[0x01, 0x02, b'A'],
    &[0x00, 0x03, b'A'],
    // with a flag, which a header's own has.
    &[0x80, 0x0A, 0x02, 0, 0],
    &[0x81, 0x01],
    // Null, and the largest length.
    &[0xFF, 0xFF],
    // The digits of a reference, one more than it needs.
    b"0123456789abcdefA",
];

impl<L: Library> Run<L> {
    /// A row that is tried, whether it is its turn or not.
    fn awaited_row(&mut self, list: &List, data: &[u8], few: usize) -> Flow {
        self.row(list, data)?;
        self.awaited_now(list, data, few)
    }

    pub(super) fn awaited_rows(&mut self) -> Flow {
        self.beginnings_of_values()?;
        self.examples()?;
        self.unused()?;
        self.around_the_limit()
    }

    /// Each column alone, and before others; at the row's start, behind what is skipped and behind another column.
    fn beginnings_of_values(&mut self) -> Flow {
        let small = plain(Name::SmallInt.plain());
        let last = Column {
            nullable: true,
            ..plain(Name::VarChar.with(9))
        };
        for column in counted_columns(self.release) {
            let alone = List::of(&[column]);
            let before_others = List::numbered(vec![column, small, last]);
            let behind_one = List::numbered(vec![small, column]);
            for beginning in BEGINNINGS {
                for length in 0..=beginning.len() {
                    let beginning = &beginning[..length];
                    let skipped = [&[0xFF, 0x00][..], beginning].concat();
                    for list in [&alone, &before_others] {
                        self.awaited_row(list, beginning, FEW_BY_RULE)?;
                        self.awaited_row(list, &skipped, FEW_BY_RULE)?;
                    }
                    let behind = [&[0x00, 0x2A][..], beginning].concat();
                    self.awaited_row(&behind_one, &behind, FEW_BY_RULE)?;
                }
            }
        }
        Continue(())
    }

    /// Rows that are long with zeros, each of them tried.
    fn examples(&mut self) -> Flow {
        let small = plain(Name::SmallInt.plain());
        let counted = [
            plain(Name::VarChar.with(9)),
            plain(Name::LongVarChar.plain()),
            plain(Name::VarBinary.with(9)),
            plain(Name::VarChar.with(0x8009)),
            doubled(Name::VarGraphic.with(9)),
            doubled(Name::Graphic.with(0xFFFF)),
            plain(Name::Char.with(0xFFFF)),
            plain(Name::Xml.plain()),
        ];
        for column in counted {
            let list = List::numbered(vec![column, small]);
            for row in [
                &[0x01][..],
                &[0x7F],
                &[0xFF],
                &[0xFF, 0xFF],
                &[0x80, 0x00, 0x41],
                &[0x00, 0x01, 0x00],
            ] {
                self.awaited_row(&list, &[&[0xFF, 0x00][..], row].concat(), ROW_LIMIT)?;
            }
        }
        // As long as a LobBytes or LobChar declares; with 16 digits it takes what is there.
        for name in [Name::LobBytes, Name::LobChar] {
            for own in [1023, 1024, 1025, 0x8400, 0x7FFF] {
                let lob = plain(name.with(own));
                let lists = [vec![lob], vec![lob, small], vec![small, lob, lob]];
                for list in lists.map(List::numbered) {
                    for digits in 13..22 {
                        let row = vec![b'0'; digits];
                        self.awaited_row(&list, &row, ROW_LIMIT)?;
                        self.awaited_row(&list, &[&row[..], b"\0G"].concat(), ROW_LIMIT)?;
                    }
                }
            }
        }
        // Nothing is there of as many columns as there may be.
        for nullable in [false, true] {
            let of_each = columns::one_of_each().into_iter();
            let of_each = of_each.filter(|column| column.db2_type.name != Name::DecFloat);
            let of_each = of_each.map(|column| Column { nullable, ..column });
            let columns: Vec<Column> = of_each.cycle().take(COLUMN_LIMIT).collect();
            let list = List::numbered(columns);
            for row in [&[0xFF, 0x00][..], &[0, 0], &[1, 0], &[0x01, 0x00, 0x00]] {
                self.awaited_row(&list, row, ROW_LIMIT)?;
            }
        }
        Continue(())
    }

    /// Columns that take no byte, and rows of some.
    fn unused(&mut self) -> Flow {
        let none = Column {
            reference: Some(0),
            ..plain(Name::Xml.plain())
        };
        let columns = [
            plain(Name::Null.plain()),
            plain(Name::Char.with(0)),
            plain(Name::Binary.with(0)),
            plain(Name::Graphic.with(0)),
            plain(Name::RowId.with(0)),
            plain(Name::LobBytes.with(0)),
            plain(Name::LobChar.with(0x8000)),
            none,
        ];
        let mut lists = vec![List::default(), List::numbered(columns.to_vec())];
        lists.extend(columns.map(|column| List::of(&[column])));
        for list in &lists {
            for row in [
                &[0, 0][..],
                &[0x00, 0xFF],
                &[0x02, 0, 0, 0, 0, 0, 0, 0, 0],
                b"0123456789abcdef",
                // Of these the two skipped are used.
                &[0xFF, 0x00],
                &[0xFF, 0xFF, 0xFF],
            ] {
                for _ in 0..20 {
                    self.awaited_row(list, row, ROW_LIMIT)?;
                }
            }
        }
        Continue(())
    }

    /// LOBs that declare what the limit leaves, one byte fewer and one more, and far more.
    fn around_the_limit(&mut self) -> Flow {
        for name in [Name::Blob, Name::Clob, Name::Xml] {
            let lob = Column {
                length: 1,
                ..plain(name.plain())
            };
            let list = List::of(&[lob]);
            let most = ROW_LIMIT as u32 - 4;
            for declared in [most - 1, most, most + 1, 0x0100_0000, 0xFFFF_FFFF] {
                self.awaited_row(&list, &declared.to_be_bytes(), ROW_LIMIT)?;
            }
            // What is beyond the limit by one byte is refused by 4, and not waited for.
            let mut row = (most + 1).to_be_bytes().to_vec();
            row.resize(ROW_LIMIT + 1, 0);
            self.row(&list, &row)?;
        }
        Continue(())
    }
}

/// The column's lengths count characters of two bytes.
fn doubled(db2_type: Type) -> Column {
    Column {
        ccsid: 1200,
        order: Order::Little,
        ..plain(db2_type)
    }
}

/// Columns of every type, by every way to say how many bytes a value takes.
fn counted_columns(release: u32) -> Vec<Column> {
    let types = [
        Type::decimal(31, 5),
        Name::Char.with(5),
        Name::Binary.with(5),
        Name::RowId.with(17),
        Name::Graphic.with(3),
        Name::VarChar.with(0x8000),
        Name::VarChar.with(0x8001),
        Name::VarChar.with(0x8002),
        Name::VarGraphic.with(0x800A),
        Name::LobBytes.with(3),
        Name::LobChar.with(40),
        Name::LobBytes.with(1023),
        Name::LobBytes.with(1024),
        Name::LobChar.with(0x8400),
        Name::LobChar.with(1500),
    ];
    let mut all: Vec<Column> = types.map(plain).to_vec();
    all.extend([Name::Graphic.with(3), Name::VarGraphic.with(3)].map(doubled));
    for name in [
        Name::Timestamp,
        Name::Boolean,
        Name::Blob,
        Name::Clob,
        Name::DbClob,
        Name::Xml,
    ] {
        for length in [0, 3] {
            let references = [None, Some(0), Some(1), Some(9), Some(12)];
            let references = references.into_iter();
            for reference in references.filter(|width| is_lob(name) || width.is_none()) {
                all.push(Column {
                    length,
                    reference,
                    ..plain(name.plain())
                });
            }
        }
    }
    let nullable: Vec<Column> = all
        .iter()
        .map(|column| Column {
            nullable: true,
            ..*column
        })
        .collect();
    all.extend(nullable);
    all.extend(columns::one_of_each_at(release));
    all.retain(|column| column.db2_type.name != Name::DecFloat);
    all
}
