program report
print *, 6 * 7 - 2
end program report
