$ ls	
Bank
Mél – 邮件 🔑
Work/
Famille & <amis>/
$ ls	-R	
Bank
Mél – 邮件 🔑
Work/
  Größere Kunden/
    Portal
    邮件 🔑/
        spaces round it  
Famille & <amis>/
$ ls	-R	-f	
Bank
Mél – 邮件 🔑
Work/
Work/Größere Kunden/
Work/Größere Kunden/Portal
Work/Größere Kunden/邮件 🔑/
Work/Größere Kunden/邮件 🔑/  spaces round it  
Famille & <amis>/
$ ls	-f	
Bank
Mél – 邮件 🔑
Work/
Famille & <amis>/
$ ls	Work
Größere Kunden/
$ ls	-R	Work
Größere Kunden/
  Portal
  邮件 🔑/
      spaces round it  
$ ls	-R	-f	Work
Größere Kunden/
Größere Kunden/Portal
Größere Kunden/邮件 🔑/
Größere Kunden/邮件 🔑/  spaces round it  
$ ls	-f	Work
Größere Kunden/
