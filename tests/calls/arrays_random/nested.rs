//! List views rebuilt, and what is told of their elements; and records with other columns, their
//! columns by path, and records end to end.

use crate::column::{Column, Made, Play, copies, has_rows, is_refused};
use crate::grow::leaf;
use crate::make_arrays::{Done, answered};
use crate::values::{Value, copied};
use std::alloc::Global;
use vortex_arrays::{
    ArrayError, ArrayRef, ListViewArray, ListViewArrayExt, ListViewRebuild, ListViewRebuildMode,
    StructArray, StructArrayConcat, column_at,
};
use vortex_dtype::{DTypeError, FieldName};
use vortex_scalar::ScalarValue;

/// The column, rebuilt where it is one of list views.
pub fn rebuild(play: &mut Play<'_, '_>, column: Column) -> Made {
    let (alloc, Column { array, rows }) = (play.alloc, column);
    let lists = match ListViewArray::of_array(array) {
        Ok(lists) => lists,
        Err(array) => return Ok(Column { array, rows }),
    };
    let is_so = match lists.rebuild(alloc, ListViewRebuildMode::OverlapCompression) {
        Ok(_same) => lists.is_empty(),
        Err(error) => !lists.is_empty() && error == ArrayError::NotImplemented,
    };
    play.holds("rebuild by overlaps", is_so);
    let mode = match play.dice.below(3) {
        0 => ListViewRebuildMode::MakeZeroCopyToList,
        1 => ListViewRebuildMode::TrimElements,
        _ => ListViewRebuildMode::MakeExact,
    };
    let rebuilt = answered(lists.rebuild(alloc, mode))?;
    let is_canonical = match mode {
        ListViewRebuildMode::TrimElements => is_trimmed(&lists, &rebuilt),
        _ => lists.is_zero_copy_to_list() || lists.is_empty() || is_end_to_end(&rebuilt, &rows),
    };
    play.holds("rebuild, its layout", is_canonical);
    let again = answered(rebuilt.rebuild(alloc, mode))?;
    let same = has_rows(alloc, again.as_array(), &rows)?;
    let as_many = again.elements().len() == rebuilt.elements().len();
    play.holds("rebuild twice", same && as_many && are_lowered(&rebuilt, &again, 0));
    play.done("rebuild", rebuilt.into_array(), rows)
}

/// Whether each list begins where the rows before end, null ones without elements, and no element
/// is left.
fn is_end_to_end(lists: &ListViewArray, rows: &[Value]) -> bool {
    let mut next = 0;
    for (i, row) in rows.iter().enumerate() {
        let size = row.as_ref().and_then(|it| it.as_list()).map_or(0, |it| it.len());
        if lists.offset_at(i) != next || lists.size_at(i) != size {
            return false;
        }
        next += size;
    }
    lists.is_zero_copy_to_list() && lists.elements().len() == next
}

/// Whether the elements are those from the least offset to the greatest end, of null lists too.
fn is_trimmed(lists: &ListViewArray, trimmed: &ListViewArray) -> bool {
    let starts = (0..lists.len()).map(|i| lists.offset_at(i));
    let ends = (0..lists.len()).map(|i| lists.offset_at(i) + lists.size_at(i));
    let (Some(start), Some(end)) = (starts.min(), ends.max()) else {
        return true;
    };
    lists.referenced_element_bounds() == Some((start, end))
        && trimmed.elements().len() == end - start
        && are_lowered(lists, trimmed, start)
}

/// Whether the others are the lists with offsets that are so much less.
fn are_lowered(lists: &ListViewArray, others: &ListViewArray, by: usize) -> bool {
    lists.len() == others.len()
        && (0..lists.len()).all(|i| {
            others.offset_at(i) + by == lists.offset_at(i) && others.size_at(i) == lists.size_at(i)
        })
}

/// What is told of the elements of list views.
pub fn measure(play: &mut Play<'_, '_>, column: Column) -> Made {
    let (alloc, Column { array, rows }) = (play.alloc, column);
    let lists = match ListViewArray::of_array(array) {
        Ok(lists) => lists,
        Err(array) => return Ok(Column { array, rows }),
    };
    let elements = lists.elements().len();
    let has = |i: usize, j: usize| {
        lists.offset_at(i) <= j && j < lists.offset_at(i) + lists.size_at(i) && rows[i].is_some()
    };
    let is_marked = |j: &usize| (0..lists.len()).any(|i| has(i, *j));
    let (mut total, count) = (0, (0..elements).filter(|j| is_marked(j)).count());
    for i in 0..lists.len() {
        total += lists.size_at(i);
    }
    let mask = lists.compute_referenced_elements_mask(alloc)?;
    let is_so = mask.len() == elements && (0..elements).all(|j| mask.value(j) == is_marked(&j));
    play.holds("referenced elements", is_so);
    play.holds("density", lists.compute_density(alloc)? == (count, elements));
    play.holds("upper bound of the density", lists.upper_bound_density() == (total, elements));
    Ok(Column { array: lists.into_array(), rows })
}

/// What the records have at a place, null where the record is.
fn parts_at(alloc: Global, rows: &[Value], place: usize) -> Result<Vec<Value>, DTypeError> {
    let mut parts = Vec::new(alloc);
    for row in rows {
        parts.push(copied(row.as_ref().and_then(|it| it.child_at(place)))?)?;
    }
    Ok(parts)
}

/// Records with one column more, with one less and with their nulls pushed down, and one of the
/// columns.
pub fn edit(play: &mut Play<'_, '_>, column: Column) -> Made {
    let (alloc, Column { array, rows }) = (play.alloc, column);
    let records = match StructArray::of_array(array) {
        Ok(records) => records,
        Err(array) => return Ok(Column { array, rows }),
    };
    widen(play, &records, &rows)?;
    push(play, &records, &rows)?;
    let none = column_at(alloc, records.as_array(), &[FieldName::new(alloc, "z")?]);
    play.holds("column_at of none", is_refused(none, ArrayError::NoSuchField));
    let places = records.names().len();
    if places == 0 {
        return Ok(Column { array: records.into_array(), rows });
    }
    let place = play.dice.below(places);
    let path = [records.names()[place].clone()?];
    let array = answered(column_at(alloc, records.as_array(), &path))?;
    play.done("column_at", array, parts_at(alloc, &rows, place)?)
}

/// A column is added behind the others, and taken away again.
fn widen(play: &mut Play<'_, '_>, records: &StructArray, rows: &[Value]) -> Done {
    let alloc = play.alloc;
    let added = leaf(alloc, &mut play.dice, rows.len())?;
    let name = FieldName::new(alloc, "d")?;
    let wide = answered(records.with_column(alloc, name, added.array))?;
    let mut wanted = copies(alloc, rows)?;
    for (i, row) in wanted.iter_mut().enumerate() {
        if let Some(ScalarValue::Tuple(items)) = row {
            items.push(copied(added.rows[i].as_ref())?)?;
        }
    }
    play.holds("with_column", has_rows(alloc, wide.as_array(), &wanted)?);
    let Some((rest, column)) = wide.remove_column_owned(alloc, "d")? else {
        play.holds("remove_column_owned", false);
        return Ok(());
    };
    play.holds("remove_column_owned", has_rows(alloc, rest.as_array(), rows)?);
    play.holds("remove_column_owned, the column", has_rows(alloc, &column, &added.rows)?);
    Ok(())
}

/// The nulls of the records are pushed into each field.
fn push(play: &mut Play<'_, '_>, records: &StructArray, rows: &[Value]) -> Done {
    let alloc = play.alloc;
    let pushed = records.push_validity_into_children(alloc, false)?;
    play.holds("push_validity", has_rows(alloc, pushed.as_array(), rows)?);
    for (place, field) in pushed.unmasked_fields().iter().enumerate() {
        let same = has_rows(alloc, field, &parts_at(alloc, rows, place)?)?;
        play.holds("push_validity, a field", same);
    }
    let removed = records.push_validity_into_children(alloc, true)?;
    let none_null = (0..rows.len()).all(|i| removed.as_array().is_valid(i));
    play.holds("push_validity, removed", none_null);
    Ok(())
}

/// Records twice, one part after the other, where each field has a plain layout.
pub fn join(play: &mut Play<'_, '_>, column: Column) -> Made {
    let (alloc, Column { array, rows }) = (play.alloc, column);
    let start = play.dice.below(rows.len() + 1);
    let part = answered(array.slice(alloc, start..rows.len()))?;
    let records = match StructArray::of_array(array) {
        Ok(records) => records,
        Err(array) => return Ok(Column { array, rows }),
    };
    let mut parts = vec![in alloc; records]?;
    if let Ok(records) = StructArray::of_array(part) {
        parts.push(records)?;
    }
    let array: ArrayRef = answered(StructArray::try_concat(alloc, &parts))?.into_array();
    let mut all = copies(alloc, &rows)?;
    for row in copies(alloc, &rows[start..])? {
        all.push(row)?;
    }
    play.done("try_concat", array, all)
}
