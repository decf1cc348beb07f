use std::ops::Range;

/// Files or lists in one buffer, with the filler before, between and after them, and where
/// each stands: what is read beside one of them is the filler.
pub fn spaced<T: Copy, const N: usize>(files: [&[T]; N], filler: T) -> (Vec<T>, [Range<usize>; N]) {
    let mut buffer = vec![filler; 16];
    let places = files.map(|file| {
        let start = buffer.len();
        buffer.extend(file);
        buffer.extend([filler; 16]);
        start..start + file.len()
    });
    (buffer, places)
}
