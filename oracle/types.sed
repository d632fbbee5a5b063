# Turns a line of the program compare into the Rust's types (sed -E -f): MODEM ERROR is its CmeError::Unknown, 100; NA its NotAllowed, 3. The slot's serial
# number, which the Rust hasn't (R-11), is left out.
s/^unknown - /cme 100 /
s/^notallowed - /cme 3 /
s/ slot (free|signalled) unknown - / slot \1 cme 100 /
s/ slot (free|signalled) notallowed - / slot \1 cme 3 /
s/( slot (free|signalled) [a-z]+ [^ ]+ [0-9]+ [0-9]+) serial [0-9]+ memory /\1 memory /
