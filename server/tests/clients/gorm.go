// gorm: a table, rows, and transactions. Word: a database as port/name.
package main

import (
	"errors"
	"fmt"
	"os"
	"strings"

	_ "github.com/go-sql-driver/mysql"
	"github.com/jinzhu/gorm"
)

type Account struct {
	ID      string `gorm:"primary_key;size:20"`
	Balance int    `gorm:"not null;default:0"`
	Note    *string
}

func must(it *gorm.DB) *gorm.DB {
	if it.Error != nil {
		panic(it.Error)
	}
	return it
}

func show(db *gorm.DB, what string) {
	var all []Account
	must(db.Order("id").Find(&all))
	fmt.Print(what)
	for _, it := range all {
		fmt.Printf(" %s=%d", it.ID, it.Balance)
		if it.Note != nil {
			fmt.Printf(" (%s)", *it.Note)
		}
	}
	fmt.Println()
}

func main() {
	place := strings.Split(os.Args[1], "/")
	db, err := gorm.Open("mysql", fmt.Sprintf("root@tcp(127.0.0.1:%s)/%s?charset=utf8mb4", place[0], place[1]))
	if err != nil {
		panic(err)
	}
	db.LogMode(false)
	db.SingularTable(true)
	must(db.DropTableIfExists(&Account{}))
	must(db.AutoMigrate(&Account{}))
	must(db.AutoMigrate(&Account{}))
	note := "it's \u00e4"
	for _, it := range []Account{{"alice", 100, nil}, {"bob", 0, &note}, {"carol", 7, nil}} {
		must(db.Create(&it))
	}
	fmt.Println("table", db.HasTable(&Account{}))
	show(db, "created")
	var count int
	must(db.Model(&Account{}).Where("balance >= ?", 1).Count(&count))
	fmt.Println("count", count)
	moved := db.Model(&Account{}).Where("id = ? AND balance >= ?", "alice", 10).
		UpdateColumn("balance", gorm.Expr("balance - ?", 10))
	fmt.Println("moved", must(moved).RowsAffected)
	poor := db.Model(&Account{}).Where("id = ? AND balance >= ?", "bob", 10).
		UpdateColumn("balance", gorm.Expr("balance - ?", 10))
	fmt.Println("not moved", must(poor).RowsAffected)
	var bob Account
	must(db.First(&bob, "id = ?", "bob"))
	bob.Balance = 3
	must(db.Save(&bob))
	show(db, "saved")
	fmt.Println("refused", db.Create(&Account{ID: "ALICE"}).Error)
	fmt.Println("not found", gorm.IsRecordNotFoundError(db.First(&Account{}, "id = ?", "zoe").Error))
	refused := db.Transaction(func(within *gorm.DB) error {
		must(within.Set("gorm:query_option", "FOR UPDATE").Where("id = ?", "alice").First(&Account{}))
		must(within.Where("id IN (?)", []string{"alice", "bob"}).Delete(Account{}))
		show(within, "in it")
		return errors.New("no")
	})
	fmt.Println("rolled back", refused)
	show(db, "after it")
	fmt.Println("deleted", must(db.Delete(&bob)).RowsAffected, must(db.Delete(Account{})).RowsAffected)
	must(db.DropTable(&Account{}))
	fmt.Println("table", db.HasTable(&Account{}))
}
