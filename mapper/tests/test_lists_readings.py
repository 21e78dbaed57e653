"""Several readings of one well: the newest by a date column, or what is chosen; and days that can be read in two ways."""
from mapper.lists.dates import moment, orders
from mapper.tests.list_folder import ListFolder

THREE = 'name,x,y,level,{}\nA,1,2,30,{}\nA,1,2,31,{}\nB,5,6,7,{}\nA,1,2,32,{}\n'
UNDATED = 'name,x,y,level\nA,1,2,30\nB,5,6,7\nA,1,2,31\nA,1,2,35\n'


class Readings(ListFolder):
    def dated(self, *days, header='date', **options):
        return self.list(THREE.format(header, *days), **options)

    def test_newest(self):
        for days in (('2023-05-01', '2024-05-01', '2020-01-01', '2022-05-01'), ('1.5.2023', '01.05.2024', '1.1.20', '31.5.2022'),
                     ('1/5/2023', '1/5/2024', '1/1/2020', '31/5/2022'), ('5/1/2023', '5/1/2024', '1/1/2020', '5/31/2022'),
                     ('1-5-2023', '1-5-2024', 'x', '31-5-2022'), ('2024-05-01 08:30', '2024-05-01 17:15', '2024-05-01', '2024-05-01T12:00:00'),
                     ('5/31/2024 8:30 AM', '5/31/2024 1:15 PM', '', '5/31/2024 11:00 AM')):
            found = self.dated(*days)
            self.assertEqual([(well.name, well.level, well.line) for well in found.wells], [('A', 31, 3), ('B', 7, 4)], days)
            self.has(found.notes[0], 'A stands in the list with 3 readings; the newest is taken (2024-05-')

    def test_what_the_column_is_called(self):
        for header in ('Date', 'Datum', 'Messdatum', 'Fecha', 'date_measured'):
            self.assertEqual(self.dated('2023-05-01', '2024-05-01', '', '2022-05-01', header=header).wells[0].level, 31, header)
        found = self.dated('2023-05-01', '2024-05-01', '', '2022-05-01', header='seen', columns={'date': 'Seen'})
        self.assertEqual(found.wells[0].level, 31)

    def test_the_order_of_columns_of_days(self):
        self.assertEqual(self.dated('05/04/2024', '06/03/2024', '', '13/01/2024').wells[0].level, 30)
        self.assertEqual(self.dated('05/04/2024', '06/03/2024', '', '01/13/2024').wells[0].level, 31)

    def test_several_wells(self):
        found = self.list('name,x,y,level,date\nA,1,2,30,2023-01-05\nA,1,2,31,2022-01-05\nB,3,4,5,2024-05-31\nB,3,4,6,2021-01-01\n')
        self.assertEqual(found.notes, ['2 wells (A and B) stand in the list with 4 readings; the newest of each is taken (2023-01-05 to 2024-05-31).'])
        self.assertEqual([well.level for well in found.wells], [30, 5])

    def test_days_that_can_be_read_in_two_ways(self):
        text = THREE.format('date', '05/04/2024', '06/03/2024', '', '01/02/2024')
        self.ends(text, 'line 2: 05/04/2024 is a day that can be read in two ways', 'Write days as 2024-05-31')
        self.stops(THREE.format('date', '13/04/2024', '06/13/2024', '', '01/02/2024'), 'some have the day first and some the month')
        self.stops(THREE.format('date', '05/04/2024 8:30', '06/03/2024 9:00', '', '01/02/2024 9:15'), '05/04/2024 8:30 is a day that can be read in two ways')
        self.assertEqual(self.list(text, readings='last').wells[0].level, 32)

    def test_unreadable_days(self):
        text = THREE.format('date', '2024-05-01', 'spring', '', '2023-05-01')
        self.ends(text, 'line 3: spring is no day that can be read, and A has several readings', '--skip-unreadable')
        found = self.list(text, skip_unreadable=True)
        self.assertEqual([(well.name, well.level) for well in found.wells], [('A', 30), ('B', 7)])
        self.has(' '.join(found.notes), '1 line of 4 left out by --skip-unreadable: A (line 3): date is no day: spring', 'with 2 readings')
        self.stops(THREE.format('date', '2024-05-01', '2024-02-30', '', '2023-05-01'), 'line 3: 2024-02-30 is no day')

    def test_days_do_not_matter_where_each_well_was_read_once(self):
        self.assertEqual(self.numbers('name,x,y,level,date\nA,1,2,30,spring\nB,1,3,31,01/02/2024\n'), [(1, 2, 30), (1, 3, 31)])

    def test_two_of_the_newest_day(self):
        text = THREE.format('date', '2024-05-01', '2024-05-01', '', '2023-05-01')
        self.ends(text, 'A has 2 readings of 2024-05-01, its newest day (lines 2 and 3)', '--readings')

    def test_without_days(self):
        self.ends(UNDATED, 'A stands in the list 3 times at one place with other levels (lines 2, 4 and 5)', '--readings first, last or average', 'column date')
        self.stops(UNDATED + 'B,5,6,8\n', 'and so does one other well')
        for choice, level in (('first', 30), ('last', 35), ('average', 32)):
            found = self.list(UNDATED, readings=choice)
            self.assertEqual([(well.name, well.level) for well in found.wells], [('A', level), ('B', 7)])
            self.has(found.notes[0], '3 readings', {'average': 'the average level is taken'}.get(choice, f'the {choice} is taken'))

    def test_newest_without_days(self):
        self.ends(UNDATED, 'no column with the day of each reading for --readings newest', '--date COLUMN', options=('--readings', 'newest'))

    def test_the_command(self):
        wells = self.file('name,x,y,level\nA,0,0,10\nB,100,0,11\nC,0,100,12.5\nD,90,80,12\nD,90,80,13\n')
        said = self.made(wells, '--readings', 'average', '--grid', '3x3', '--nugget', '0', '--sill', '1', '--range', '150')
        self.has(said, 'D stands in the list with 2 readings; the average level is taken')

    def test_repeated_lines_are_no_readings(self):
        for readings in (None, 'first', 'average'):
            found = self.list('name,x,y,level\nA,1,2,30\nA,1,2,30\nB,5,6,7\n', readings=readings)
            self.assertEqual(([well.line for well in found.wells], found.notes), ([2, 3, 4], []))
        self.assertEqual(len(self.wells('name,x,y,level,date\nA,1,2,30,2024-05-01\nA,1,2,30,2024-05-01\n')), 2)
        self.assertEqual([well.line for well in self.wells('name,x,y,level,date\nA,1,2,30,2024-05-01\nA,1,2,30,2024-06-01\n')], [3])

    def test_other_places_are_other_wells(self):
        self.assertEqual(len(self.numbers('name,x,y,level\nA,1,2,30\nA,1,3,31\n')), 2)


class Days(ListFolder):
    def test_what_is_none(self):
        for text in ('', 'May', '31.13.2024', '2024', '45443', '2024-13-01', '5/6/24', '31.5', '2024-05-01 25:00'):
            self.assertIsNone(moment(text, 'day'), text)

    def test_years_of_two_figures(self):
        self.assertEqual([moment(text, None).year for text in ('31.5.24', '1.1.69', '1.1.70', '1.1.99', '1.1.1066')], [2024, 2069, 1970, 1999, 1066])

    def test_orders(self):
        self.assertEqual(orders(['1/2/2024', '2024-05-31', 'x']), {'day', 'month'})
        self.assertEqual(orders(['13/2/2024', '1/2/2024']), {'day'})
        self.assertEqual(orders(['1/13/2024 12:00']), {'month'})
        self.assertEqual(orders(['13/2/2024', '2/13/2024']), set())
        self.assertEqual(orders(['12/12/2024']), {'day', 'month'})
