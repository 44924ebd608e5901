$ ls	
Work/
Home – maison/
$ ls	-R	
Work/
  Mél – 邮件
  Bank
Home – maison/
  Moved/
    Left out of reports
$ ls	-R	-f	
Work/
Work/Mél – 邮件
Work/Bank
Home – maison/
Home – maison/Moved/
Home – maison/Moved/Left out of reports
$ ls	-f	
Work/
Home – maison/
$ ls	Work
Mél – 邮件
Bank
$ ls	-R	Work
Mél – 邮件
Bank
$ ls	-R	-f	Work
Mél – 邮件
Bank
$ ls	-f	Work
Mél – 邮件
Bank
$ ls	Home – maison
Moved/
$ ls	-R	Home – maison
Moved/
  Left out of reports
$ ls	-R	-f	Home – maison
Moved/
Moved/Left out of reports
$ ls	-f	Home – maison
Moved/
