program p
print *, 2147483647 + 1
end program p
