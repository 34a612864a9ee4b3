//! Every short string over an alphabet.

/// Calls `work` with every string of at most `longest` letters.
pub fn for_each_string<T: Copy>(alphabet: &[T], longest: usize, work: &mut dyn FnMut(&[T])) {
    fn extend<T: Copy>(string: &mut Vec<T>, alphabet: &[T], longest: usize, work: &mut dyn FnMut(&[T])) {
        work(string);
        if string.len() < longest {
            for letter in alphabet {
                string.push(*letter);
                extend(string, alphabet, longest, work);
                string.pop();
            }
        }
    }
    extend(&mut Vec::new(), alphabet, longest, work);
}
