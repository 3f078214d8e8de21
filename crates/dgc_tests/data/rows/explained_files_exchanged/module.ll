cert 2
function @f none
end
