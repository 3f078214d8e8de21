define i64 @many(i64 %n) {
entry:
  %c = icmp eq i64 %n, 0
  br i1 %c, label %last, label %more
last:
  ret i64 1
more:
  %m = sub i64 %n, 1
  %v1 = add i64 %n, 1
  %v2 = add i64 %v1, 2
  %v3 = add i64 %v2, 3
  %v4 = add i64 %v3, 4
  %v5 = add i64 %v4, 5
  %v6 = add i64 %v5, 6
  %v7 = add i64 %v6, 7
  %v8 = add i64 %v7, 8
  %v9 = add i64 %v8, 9
  %v10 = add i64 %v9, 10
  %v11 = add i64 %v10, 11
  %v12 = add i64 %v11, 12
  %v13 = add i64 %v12, 13
  %v14 = add i64 %v13, 14
  %v15 = add i64 %v14, 15
  %v16 = add i64 %v15, 16
  %v17 = add i64 %v16, 17
  %v18 = add i64 %v17, 18
  %v19 = add i64 %v18, 19
  %v20 = add i64 %v19, 20
  %v21 = add i64 %v20, 21
  %v22 = add i64 %v21, 22
  %v23 = add i64 %v22, 23
  %v24 = add i64 %v23, 24
  %v25 = add i64 %v24, 25
  %v26 = add i64 %v25, 26
  %v27 = add i64 %v26, 27
  %v28 = add i64 %v27, 28
  %v29 = add i64 %v28, 29
  %v30 = add i64 %v29, 30
  %v31 = add i64 %v30, 31
  %v32 = add i64 %v31, 32
  %v33 = add i64 %v32, 33
  %v34 = add i64 %v33, 34
  %v35 = add i64 %v34, 35
  %v36 = add i64 %v35, 36
  %v37 = add i64 %v36, 37
  %v38 = add i64 %v37, 38
  %v39 = add i64 %v38, 39
  %v40 = add i64 %v39, 40
  %v41 = add i64 %v40, 41
  %v42 = add i64 %v41, 42
  %v43 = add i64 %v42, 43
  %v44 = add i64 %v43, 44
  %v45 = add i64 %v44, 45
  %v46 = add i64 %v45, 46
  %v47 = add i64 %v46, 47
  %v48 = add i64 %v47, 48
  %v49 = add i64 %v48, 49
  %v50 = add i64 %v49, 50
  %v51 = add i64 %v50, 51
  %v52 = add i64 %v51, 52
  %v53 = add i64 %v52, 53
  %v54 = add i64 %v53, 54
  %v55 = add i64 %v54, 55
  %v56 = add i64 %v55, 56
  %v57 = add i64 %v56, 57
  %v58 = add i64 %v57, 58
  %v59 = add i64 %v58, 59
  %v60 = add i64 %v59, 60
  %v61 = add i64 %v60, 61
  %v62 = add i64 %v61, 62
  %v63 = add i64 %v62, 63
  %v64 = add i64 %v63, 64
  %v65 = add i64 %v64, 65
  %v66 = add i64 %v65, 66
  %v67 = add i64 %v66, 67
  %v68 = add i64 %v67, 68
  %v69 = add i64 %v68, 69
  %v70 = add i64 %v69, 70
  %r = call i64 @many(i64 %m)
  %s1 = add i64 %r, %v1
  %s2 = add i64 %s1, %v35
  %s3 = add i64 %s2, %v70
  ret i64 %s3
}
