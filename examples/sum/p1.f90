program p
print *, 2+3*4
end program p
