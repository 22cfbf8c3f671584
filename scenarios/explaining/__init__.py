"""What ./play --explain and --table say: a reading of the file by the rules of scenario files, held against the program's answer."""
