"""The tables of source 000, and its paths through objects in plain Python."""
from notation import Table

# Small collections that the paper writes out.
L = Table('L', 'list', 'n', (1,), (2,), (3,))
B = Table('B', 'bag', 'n', (4,), (5,))
L12 = Table('L12', 'list', 'n', (1,), (2,))
B12 = Table('B12', 'bag', 'n', (1,), (2,))
B343 = Table('B343', 'bag', 'n', (3,), (4,), (3,))
B121 = Table('B121', 'bag', 'n', (1,), (2,), (1,))
S = Table('S', 'set', 'n', (1,), (2,))
S23 = Table('S23', 'set', 'n', (2,), (3,))
S123 = Table('S123', 'set', 'n', (1,), (2,), (3,))
S14 = Table('S14', 'set', 'n', (1,), (4,))

# Relations of the paper's schematic examples.
X = Table('X', 'set', 'C D', (1, 11), (2, 10), (3, 12))
Y = Table('Y', 'set', 'C D', (1, 5), (3, 7), (3, 8), (2, 9))
K = Table('K', 'set', 'k v', (1, 5), (2, 6), (1, 7))
G = Table('G', 'set', 'g', (1,), (2,), (3,))
M = Table('M', 'set', 'g n', (1, 4), (1, 5), (2, 5))
P = Table('P', 'set', 'x y z', (1, 2, 3), (4, 5, 6), (7, 8, 3))
R = Table('R', 'set', 'A B C', (1, 5, 7), (2, 6, 7), (3, 5, 8))
S_CD = Table('S_CD', 'set', 'C D', (7, 5), (8, 6), (7, 9))
A_XN = Table('A_XN', 'set', 'X N', (1, 5), (2, 6))
B_YM = Table('B_YM', 'set', 'Y M', (10, 5), (20, 5))
Z = Table('Z', 'bag', 'X Z', (1, 100), (1, 1))
V = Table('V', 'bag', 'i a', (4, 10), (6, 13), (2, 11), (3, 12))
W = Table('W', 'bag', 'i a', (2, 3), (4, 2))

# The University (figure 1). CSE is 10; a professor's rank is 3; cse2320 is 2320.
DEPARTMENTS = Table('Departments', 'bag', 'dno name', (1, 10), (2, 20), (3, 30))
INSTRUCTORS = Table(
    'Instructors', 'bag', 'ssn name address salary rank dept',
    (61, 101, 1001, 900, 3, 1), (62, 102, 1002, 700, 2, 1),
    (63, 103, 1003, 800, 3, 2), (64, 104, 1004, 600, 1, 1))
COURSES = Table('Courses', 'bag', 'code name offered by',
                (1, 2320, 1, 61), (2, 5331, 1, 61), (3, 5330, 1, 62), (4, 3330, 2, 63))
PREREQUISITES = Table('Prerequisites', 'bag', 'course before', (2, 1), (2, 3), (3, 1))
TEACHING = Table('Teaching', 'bag', 'ssn course',
                 *[(61, course) for course in range(1, 10)],
                 *[(63, course) for course in range(1, 9)])

# Employees, their managers and children (sections 4, 6 and 7).
EMPLOYEES = Table('Employees', 'bag', 'id name dno age salary manager',
                  (1, 11, 1, 40, 500, 9), (2, 12, 1, 35, 300, 9),
                  (3, 13, 2, 28, 400, 8), (4, 14, 2, 45, 250, 8))
MANAGERS = Table('Managers', 'set', 'id age salary', (8, 50, 350), (9, 38, 450))
CHILDREN = Table('Children', 'bag', 'parent name age',
                 (1, 21, 12), (1, 22, 5), (2, 23, 9), (9, 24, 8), (9, 25, 4), (3, 26, 2))
DEPTS = Table('Depts', 'set', 'dno name', (1, 31), (2, 32), (3, 33))
STUDENTS = Table('Students', 'set', 'id', (1,), (2,), (3,))
OFFERED = Table('Offered', 'set', 'cno title', (10, 7), (11, 7), (12, 8))
TRANSCRIPT = Table('Transcript', 'set', 'id cno', (1, 10), (1, 11), (2, 10), (3, 12))


def teaches(ssn):
    return [c for c in COURSES if c.by == ssn]


def instructors(dno):
    return [i for i in INSTRUCTORS if i.dept == dno]


def children(parent):
    return [c for c in CHILDREN if c.parent == parent]
