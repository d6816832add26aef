# The pieces of build/lifted.rs whose names match `want`, unchanged, between their lines `// lifted` and `// end`.
/^\/\/ lifted / {
    name = $0
    sub(/^\/\/ lifted [0-9]+ [0-9]+ /, "", name)
    on = name ~ want
}
on { print }
/^\/\/ end$/ { on = 0 }
