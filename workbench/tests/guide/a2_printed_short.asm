'a'
println
263
println
123.45
println
"test"
println
